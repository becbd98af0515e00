"""Weights of periodic activities that a file names: rows `activity-id; weight`."""

from pathlib import Path
from typing import Annotated, NamedTuple

import numpy

from ..cells import File, Fixed
from ..faults import Refused
from ..formats import PeriodicActivityId
from ..tables import parsed
from .network import Real


class ActivityWeight(NamedTuple):
    """What a minute of slack of a periodic activity counts for."""

    activity_id: Annotated[PeriodicActivityId, "the activity"]
    weight: Annotated[int, Fixed(0, 10**9), "what a minute of it counts for"]


def read_weights(path: Path, activities: int) -> Real:
    """The weight of each activity; 0 where the file does not name it."""
    try:
        data = path.read_bytes()
    except OSError as why:
        raise Refused(f"{path} cannot be read: {why.strerror}") from None
    weights = numpy.zeros(activities)
    seen = set[int]()
    for number, row in enumerate(parsed(File(str(path), ActivityWeight), data), 1):
        if row.activity_id > activities:
            raise Refused(f"{path} row {number}: unknown activity ({row.activity_id})")
        if row.activity_id in seen:
            raise Refused(f"{path} row {number}: activity {row.activity_id} comes twice")
        seen.add(row.activity_id)
        weights[row.activity_id - 1] = row.weight / 10**6
    if not weights.any():
        raise Refused(f"{path} has no weight above 0, so there is nothing to make better")
    return weights
