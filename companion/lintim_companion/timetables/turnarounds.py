"""Turnarounds of vehicles: at each stop the ends of runs are matched with the starts of runs, so that
all turnarounds together take least minutes. They are activities beside those of the network, of
which a timetable for few vehicles makes the minutes count (as in C. Liebchen and R. H. Möhring, The
modeling power of the periodic event scheduling problem, 2007)."""

from dataclasses import dataclass, replace

import numpy
from scipy.optimize import linear_sum_assignment

from .network import PeriodicNetwork, Whole, whole


@dataclass(frozen=True)
class Terminals:
    """At each stop the last events of runs, and the first ones."""

    ends: list[Whole]
    starts: list[Whole]
    minutes: int

    def matched(self, period: int, times: Whole) -> tuple[Whole, Whole, int]:
        """Which end is followed by which start, and the minutes beyond the least of all of them."""
        first, second, slack = [], [], 0
        for ends, starts in zip(self.ends, self.starts):
            waits = (times[starts][None, :] - times[ends][:, None] - self.minutes) % period
            rows, columns = linear_sum_assignment(waits)
            first.append(ends[rows])
            second.append(starts[columns])
            slack += int(waits[rows, columns].sum())
        nothing = whole([])
        return numpy.concatenate([*first, nothing]), numpy.concatenate([*second, nothing]), slack


def terminals(network: PeriodicNetwork, minutes: int) -> Terminals:
    """The ends and starts of runs by stop; a turnaround takes so many minutes at least."""
    last: dict[int, int] = {}
    for event, run in enumerate(network.run):
        last[int(run)] = event
    at_end, at_start = whole(sorted(last.values())), numpy.flatnonzero(network.place == 0)
    stops = numpy.unique(network.stop[at_end])
    ends = [at_end[network.stop[at_end] == stop] for stop in stops]
    starts = [at_start[network.stop[at_start] == stop] for stop in stops]
    return Terminals(ends, starts, minutes)


def with_turnarounds(network: PeriodicNetwork, at: Terminals, times: Whole) -> PeriodicNetwork:
    """The network with an activity for each turnaround that is matched under the times."""
    first, second, _ = at.matched(network.period, times)
    least = numpy.full(len(first), at.minutes)
    return replace(
        network,
        first=numpy.concatenate([network.first, first]),
        second=numpy.concatenate([network.second, second]),
        lower=numpy.concatenate([network.lower, least]),
        upper=numpy.concatenate([network.upper, least + network.period - 1]),
        kind=[*network.kind, *["turnaround"] * len(first)],
    )
