"""What is told of the customers of a day: tables, values and lines."""

from typing import NamedTuple

import numpy as np

from ..cells import MILLION
from ..dataset import Dataset
from ..faults import Refused
from ..formats import (
    DAY_EVENTS,
    TRIPS,
    ChangeUse,
    DriveUse,
    MissedUse,
    PairUse,
    StopUse,
    TripUse,
    Value,
)
from .flows import Flows
from .net import Net, Wholes


class Uses(NamedTuple):
    """The tables of a day with customers."""

    stops: list[StopUse]
    drives: list[DriveUse]
    trips: list[TripUse]
    changes: list[ChangeUse]
    missed: list[MissedUse]
    pairs: list[PairUse]


def trips_of(data: Dataset) -> tuple[Wholes, list[int]]:
    """The number of the trip of each event by place, 0 where there is none, and the lines of trips
    by number, of which none has 0."""
    trip = np.zeros(len(data[DAY_EVENTS]), np.int64)
    lines = [0]
    for number, row in enumerate(data[TRIPS], 1):
        trip[row.start_id - 1 : row.end_id] = number
        lines.append(row.line)
    if not trip.all():
        raise Refused(f"{TRIPS.name} has no trip for event {int(np.argmin(trip)) + 1}")
    return trip, lines


def uses(data: Dataset, net: Net, flows: Flows, capacity: int) -> Uses:
    """The tables of a day at these times; the capacity is in customers, 0 where there is none."""
    day = net.day
    trip, lines = trips_of(data)
    leaves = np.where(day.leaves, flows.by, 0)
    boarding, alighting = flows.starts + flows.resumed, flows.ends + flows.left
    np.add.at(boarding, day.heads, leaves)
    np.add.at(alighting, day.tails, leaves)
    stops = [
        StopUse(*row)
        for row in zip(
            trip.tolist(),
            range(1, day.size + 1),
            day.stops.tolist(),
            net.times.tolist(),
            boarding.tolist(),
            alighting.tolist(),
        )
    ]
    of_drives = np.flatnonzero(day.is_drive).tolist()
    drives = []
    fullest, on = [0] * len(lines), [0] * len(lines)
    for at in of_drives:
        number, load = int(trip[day.tails[at]]), int(flows.by[at])
        drives.append(DriveUse(number, lines[number], at + 1, load))
        fullest[number] = max(fullest[number], load)
    for number, some in zip(trip.tolist(), boarding.tolist()):
        on[number] += some
    over = [max(0, load - capacity * MILLION) if capacity else 0 for load in fullest]
    trips = [TripUse(it, lines[it], on[it], fullest[it], over[it]) for it in range(1, len(lines))]
    changed = np.flatnonzero(leaves).tolist()
    changes = [ChangeUse(at + 1, int(leaves[at])) for at in changed]
    late = np.flatnonzero(flows.missed).tolist()
    missed = [MissedUse(at + 1, int(day.stops[at]), int(flows.missed[at])) for at in late]
    return Uses(stops, drives, trips, changes, missed, [PairUse(*it) for it in sorted(flows.pairs)])


def values(flows: Flows, found: Uses) -> dict[str, int]:
    """The values of a day, in millionths, by their keys."""
    arrived = int(flows.minutes.sum())
    minutes, late = (np.arange(len(it)) * it.astype(float) for it in (flows.minutes, flows.late))
    changes = sum(number * who for number, who in flows.changes.items())
    return {
        "customers": arrived + flows.without + flows.stranded,
        "customers_arrived": arrived,
        "customers_without_journey": flows.without,
        "customers_stranded": flows.stranded,
        "minutes_mean": _each(float(minutes.sum()), arrived),
        "minutes_95_percent": percentile(flows.minutes, 95) * MILLION,
        "changes_mean": _each(changes, arrived),
        "share_direct": _each(flows.changes.get(0, 0), arrived),
        "minutes_late_mean": _each(float(late.sum()), arrived),
        "minutes_late_95_percent": percentile(flows.late, 95) * MILLION,
        "customers_missed_change": int(flows.missed.sum()),
        "events_with_missed_changes": len(found.missed) * MILLION,
        "greatest_load": max((it.load for it in found.drives), default=0),
        "trips_over_capacity": sum(it.over_capacity > 0 for it in found.trips) * MILLION,
    }


def value_rows(values: dict[str, int]) -> list[Value]:
    """The rows of the file of values."""
    return [Value(key, value) for key, value in values.items()]


def _each(number: float, many: int) -> int:
    """A number for each of many, in millionths."""
    return round(number / many * MILLION) if many else 0


def percentile(numbers: Wholes, percent: int) -> int:
    """The least minutes within which so many percent of those who are counted are."""
    sums = np.cumsum(numbers)
    return int(np.searchsorted(sums, sums[-1] * (percent / 100))) if sums[-1] else 0
