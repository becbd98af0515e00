"""Least minutes from each event to each stop of arrival, in rounds: those with no change, then with
at most one, and so on, until nothing gets less (D. Delling, T. Pajor and R. F. Werneck, Round-based
public transit routing, Transportation Science 49, 2015), here from the stops of arrival backwards and
for all of them at once."""

import numpy

from .network import PeriodicNetwork, Real, Whole

MOST_ROUNDS = 50


class Rounds:
    """The parts of a network that do not change with times: runs, and changes by where they begin."""

    def __init__(self, network: PeriodicNetwork, goals: Whole) -> None:
        self.network = network
        change = numpy.flatnonzero(network.of_kind("change"))
        order = numpy.argsort(network.first[change], kind="stable")
        self.changes = change[order]
        first = network.first[self.changes]
        self.changed = numpy.unique(first)
        self.begin = numpy.searchsorted(first, self.changed)
        self.is_there = numpy.where(
            network.is_arrival[:, None] & (network.stop[:, None] == goals[None, :]), 0.0, numpy.inf
        )
        along = numpy.flatnonzero(network.of_kind("drive") | network.of_kind("wait"))
        place = network.place[network.first[along]]
        self.steps = [along[place == it] for it in range(int(place.max(initial=-1)), -1, -1)]

    def minutes(self, times: Whole, penalty: float = 0.0) -> Real:
        """The minutes, events by goals; infinite where no way leads there."""
        tension = self.network.tension(times).astype(float)
        second = self.network.second[self.changes]
        change = (tension[self.changes] + penalty)[:, None]
        reach = self._ride(self.is_there.copy(), tension)
        for _ in range(MOST_ROUNDS):
            if not len(self.changed):
                break
            best = numpy.minimum.reduceat(reach[second] + change, self.begin, axis=0)
            if (best >= reach[self.changed]).all():
                break
            reach[self.changed] = numpy.minimum(reach[self.changed], best)
            reach = self._ride(reach, tension)
        return reach

    def _ride(self, reach: Real, tension: Real) -> Real:
        """Carries minutes back along all runs, the last activity of each first."""
        for step in self.steps:
            first, second = self.network.first[step], self.network.second[step]
            reach[first] = numpy.minimum(reach[first], reach[second] + tension[step][:, None])
        return reach
