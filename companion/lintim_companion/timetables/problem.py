"""The periodic event scheduling problem (Serafini and Ukovich, 1989): a minute of the period for
each event, so that each activity can take minutes within its bounds."""

from collections.abc import Sequence
from typing import NamedTuple

from ..dataset import Dataset
from ..formats import PERIODIC_ACTIVITIES, PERIODIC_EVENTS, PeriodicTime


class Span(NamedTuple):
    """An activity: its two events, counted from 0, and its least and greatest minutes."""

    first: int
    second: int
    lower: int
    upper: int


class PeriodicProblem(NamedTuple):
    """A period, how many events there are, and the activities between them."""

    period: int
    events: int
    spans: list[Span]

    def tension(self, span: Span, times: Sequence[int]) -> int:
        """The least minutes from the lower bound on that lead from the one time to the other."""
        return span.lower + (times[span.second] - times[span.first] - span.lower) % self.period

    def first_broken(self, times: Sequence[int]) -> int | None:
        """The place of the first activity that times break, from 0."""
        for place, span in enumerate(self.spans):
            if self.tension(span, times) > span.upper:
                return place
        return None


def periodic_problem(data: Dataset, changes: int | None = None) -> PeriodicProblem:
    """The problem of a dataset; with a number of minutes, no change takes more beyond its least."""
    spans = []
    for by in data[PERIODIC_ACTIVITIES]:
        upper = by.upper_bound
        if by.type == "change" and changes is not None:
            upper = min(upper, by.lower_bound + changes)
        spans.append(Span(by.from_event - 1, by.to_event - 1, by.lower_bound, upper))
    return PeriodicProblem(data.settings.period_length, len(data[PERIODIC_EVENTS]), spans)


def timetable_rows(times: Sequence[int]) -> list[PeriodicTime]:
    """The rows of a timetable."""
    return [PeriodicTime(event, time) for event, time in enumerate(times, 1)]
