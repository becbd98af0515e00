"""Better times by moves: events that belong together are moved together, each time by what helps
most, until no move helps.

A move shifts a set of events by some minutes: all runs of a line and direction, all of a line, the
rest of a run from one of its events on, or one event alone. Only activities with one end in the set
change, so that what each shift costs is a sum over them. Moves of the rest of a run change what one
wait or drive takes, as an exchange of one arc of the tree does in the modulo network simplex (K.
Nachtigall and J. Opitz, Solving periodic timetable optimisation problems by modulo simplex
calculations, 2008)."""

from dataclasses import dataclass

import numpy

from .network import PeriodicNetwork, Real, Truth, Whole

BROKEN = 1e12  # what a broken bound costs


@dataclass(frozen=True)
class Move:
    """A set of events, and the activities that lead into it and out of it."""

    events: Whole
    into: Whole
    out: Whole


def sets_of_events(network: PeriodicNetwork) -> list[Truth]:
    """The sets of events that are moved together, the large ones first."""
    sets: list[Truth] = []
    for line in numpy.unique(network.line):
        sets.append(network.line == line)
    for group in numpy.unique(network.group):
        sets.append(network.group == group)
    for run in numpy.unique(network.run):
        of = network.run == run
        for place in range(int(of.sum())):
            sets.append(of & (network.place >= place))
    sets += list(numpy.eye(network.events, dtype=bool)) if network.events <= 6000 else []
    return sets


class Costs:
    """What activities cost under weights, and moves over those that cost anything."""

    def __init__(self, network: PeriodicNetwork, weights: Real, sets: list[Truth]) -> None:
        self.network = network
        span = network.upper - network.lower
        counts = (weights > 0) | (span < network.period - 1)
        self.counts = numpy.flatnonzero(counts & (network.first != network.second))
        slack = numpy.arange(network.period)
        broken = slack[None, :] > span[self.counts][:, None]
        self.table = weights[self.counts][:, None] * slack + BROKEN * broken
        self.first, self.second = network.first[self.counts], network.second[self.counts]
        self.lower = network.lower[self.counts]
        self.sets = sets
        self.moves = [self._move(it) for it in sets]

    def _move(self, of: Truth) -> Move:
        ends, starts = of[self.second], of[self.first]
        into, out = numpy.flatnonzero(ends & ~starts), numpy.flatnonzero(starts & ~ends)
        return Move(numpy.flatnonzero(of), into, out)

    def slack(self, times: Whole) -> Whole:
        """The slack of the activities that count."""
        found: Whole = (times[self.second] - times[self.first] - self.lower) % self.network.period
        return found

    def total(self, times: Whole) -> float:
        """The weighted sum of slack, with what broken bounds cost."""
        slack = self.slack(times)
        return float(self.table[numpy.arange(len(slack)), slack].sum())

    def by_shift(self, move: Move, slack: Whole) -> Real:
        """What the activities of a move cost with each shift of its events."""
        period = self.network.period
        shifts = numpy.arange(period)
        into = (slack[move.into][:, None] + shifts) % period
        out = (slack[move.out][:, None] - shifts) % period
        costs = self.table[move.into[:, None], into].sum(axis=0)
        found: Real = costs + self.table[move.out[:, None], out].sum(axis=0)
        return found

    def shift(self, move: Move, times: Whole, slack: Whole, by: int) -> None:
        """Moves the events of a move, in times and in slack."""
        period = self.network.period
        times[move.events] = (times[move.events] + by) % period
        slack[move.into] = (slack[move.into] + by) % period
        slack[move.out] = (slack[move.out] - by) % period
