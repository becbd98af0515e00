"""The periodic network as arrays: events, activities, and what activities take under given times."""

from dataclasses import dataclass

import numpy
from numpy.typing import NDArray

from ..dataset import Dataset
from ..formats import PERIODIC_ACTIVITIES, PERIODIC_EVENTS

Whole = NDArray[numpy.int64]
Real = NDArray[numpy.float64]
Truth = NDArray[numpy.bool_]


@dataclass(frozen=True)
class PeriodicNetwork:
    """Events and activities, both counted from 0; minutes are whole. `run` tells which run an event
    belongs to, and `place` its place in the run; `group` is its line and direction."""

    period: int
    stop: Whole
    line: Whole
    is_arrival: Truth
    group: Whole
    run: Whole
    place: Whole
    first: Whole
    second: Whole
    lower: Whole
    upper: Whole
    kind: list[str]

    @property
    def events(self) -> int:
        """How many events there are."""
        return len(self.stop)

    def slack(self, times: Whole) -> Whole:
        """By how many minutes each activity takes more than its least, in the least way."""
        return (times[self.second] - times[self.first] - self.lower) % self.period

    def tension(self, times: Whole) -> Whole:
        """How many minutes each activity takes."""
        return self.lower + self.slack(times)

    def is_kept(self, times: Whole) -> bool:
        """Whether times keep all bounds."""
        return bool((self.slack(times) <= self.upper - self.lower).all())

    def of_kind(self, kind: str) -> Truth:
        """Which activities are of a kind."""
        return numpy.array([it == kind for it in self.kind], dtype=bool)

    def minutes(self, kind: str, times: Whole) -> int:
        """The minutes of all activities of a kind, as the statistic tells them."""
        return int(self.tension(times)[self.of_kind(kind)].sum())


def whole(values: object) -> Whole:
    """An array of whole numbers."""
    return numpy.array(values, dtype=numpy.int64)


def periodic_network(data: Dataset) -> PeriodicNetwork:
    """The network of a dataset whose stage `ean` is up to date."""
    events, activities = data[PERIODIC_EVENTS], data[PERIODIC_ACTIVITIES]
    lines = {(it.line_id, it.direction) for it in events}
    group_of = {key: place for place, key in enumerate(sorted(lines))}
    runs: dict[tuple[int, str, int], int] = {}
    run: list[int] = []
    place: list[int] = []
    length: dict[int, int] = {}
    for it in events:
        number = runs.setdefault((it.line_id, it.direction, it.repetition), len(runs))
        run.append(number)
        place.append(length.setdefault(number, 0))
        length[number] += 1
    return PeriodicNetwork(
        period=data.settings.period_length,
        stop=whole([it.stop_id for it in events]),
        line=whole([it.line_id for it in events]),
        is_arrival=numpy.array([it.type == "arrival" for it in events], dtype=bool),
        group=whole([group_of[it.line_id, it.direction] for it in events]),
        run=whole(run),
        place=whole(place),
        first=whole([it.from_event - 1 for it in activities]),
        second=whole([it.to_event - 1 for it in activities]),
        lower=whole([it.lower_bound for it in activities]),
        upper=whole([it.upper_bound for it in activities]),
        kind=[it.type for it in activities],
    )
