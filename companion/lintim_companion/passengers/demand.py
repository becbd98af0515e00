"""The demand of a day: the customers of a period, spread over the minutes of the day."""

import os
from pathlib import Path

import numpy as np

from ..cells import MILLION, File
from ..dataset import Dataset
from ..faults import Refused
from ..files import read_bytes
from ..formats import DAY_EVENTS, DEMAND, MAX_HAND_BYTES, HourShare
from ..tables import parsed
from .flows import Demand
from .net import Wholes

EVEN = 100  # the share of an hour in which each period has the customers of `basis/OD.giv`


def read_demand(data: Dataset, profile: Path | None) -> Demand:
    """The demand of a dataset, by a profile of hours, or even. Customers who are where they want to
    be go nowhere. They leave between the two settings of the day, in minutes of which the last one counts too.
    """
    pairs: dict[tuple[int, int], int] = {}
    for row in data.get(DEMAND):
        if row.customers and row.from_stop != row.to_stop:
            two = row.from_stop, row.to_stop
            pairs[two] = pairs.get(two, 0) + row.customers
    if not pairs:
        raise Refused(f"{DEMAND.name} has no demand")
    if sum(pairs.values()) > 10**9 * MILLION:
        raise Refused(f"{DEMAND.name} has more than 1,000,000,000 customers together")
    if not len(data[DAY_EVENTS]):
        raise Refused(f"{DAY_EVENTS.name} has no events, so nobody can go anywhere")
    begin, end = data.settings.DM_earliest_time, data.settings.DM_latest_time
    shares = read_profile(profile) if profile is not None else {}
    weights = minute_weights(shares, begin, end + 1, EVEN if profile is None else 0)
    return Demand(pairs, begin, weights, data.settings.period_length)


def read_profile(path: Path) -> dict[int, int]:
    """The share of each hour that a file has, in hundredths."""
    data = read_bytes(path.parent.resolve(), path.name, MAX_HAND_BYTES)
    name = os.fsdecode(path)
    if data is None:
        raise Refused(f"{name} is missing")
    shares: dict[int, int] = {}
    for row in parsed(File(name, HourShare), data):
        if row.hour in shares:
            raise Refused(f"{name}: hour {row.hour} stands there twice")
        shares[row.hour] = row.share
    return shares


def minute_weights(shares: dict[int, int], begin: int, end: int, other: int) -> Wholes:
    """The weight of each minute from one to before another, by the shares of hours."""
    return np.array([shares.get(it // 60, other) for it in range(begin, end)], np.int64)
