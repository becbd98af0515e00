"""The least weighted sum of slack as a mixed-integer program over a cycle basis, for HiGHS.

Tensions along a cycle sum up to whole periods. One whole number for each cycle of a basis is
enough, and its range follows from the bounds on the cycle (C. Liebchen and L. Peeters, Integral
cycle bases for cyclic timetabling, Discrete Optimization 6, 2009). The basis is that of a spanning
tree of least spans."""

from dataclasses import dataclass
from math import ceil, floor

import networkx
import numpy

from ..highs import Answer, Cell, Mixed
from .network import PeriodicNetwork, Real, Whole, whole


@dataclass(frozen=True)
class SlackProgram:
    """The program, and how its values are turned back into times."""

    mixed: Mixed
    network: PeriodicNetwork
    activities: Whole
    tree: list[tuple[int, int, int]]

    def times(self, answer: Answer) -> Whole | None:
        """The times that values stand for, none where there are no values or they break a bound."""
        if answer.values is None:
            return None
        times = numpy.zeros(self.network.events, dtype=numpy.int64)
        place = {int(activity): column for column, activity in enumerate(self.activities)}
        for event, before, activity in self.tree:
            slack = round(answer.values[place[activity]])
            tension = int(self.network.lower[activity]) + slack
            sign = 1 if int(self.network.second[activity]) == event else -1
            times[event] = (times[before] + sign * tension) % self.network.period
        return times if self.network.is_kept(times) else None


def slack_program(network: PeriodicNetwork, weights: Real) -> SlackProgram:
    """The program of a network under weights; activities that neither cost nor bind are left out."""
    span = numpy.minimum(network.upper - network.lower, network.period - 1)
    counts = (weights > 0) | (span < network.period - 1)
    activities = numpy.flatnonzero(counts & (network.first != network.second))
    graph = networkx.MultiGraph()
    graph.add_nodes_from(range(network.events))
    for it in activities:
        ends = int(network.first[it]), int(network.second[it])
        graph.add_edge(*ends, key=int(it), span=float(span[it]))
    tree = _grown(networkx.minimum_spanning_tree(graph, weight="span"))
    rows = _cycles(network, activities, tree)
    return SlackProgram(_mixed(network, weights, span, activities, rows), network, activities, tree)


def _grown(forest: networkx.MultiGraph) -> list[tuple[int, int, int]]:
    """Each event but the roots, after the one before it in its tree, with the activity between."""
    found = []
    for part in networkx.connected_components(forest):
        for before, event in networkx.bfs_edges(forest, min(part)):
            (activity,) = forest[before][event]
            found.append((event, before, activity))
    return found


def _cycles(
    network: PeriodicNetwork, activities: Whole, tree: list[tuple[int, int, int]]
) -> list[dict[int, int]]:
    """The cycle that each activity outside the tree closes: activities with their direction."""
    above = {event: (before, activity) for event, before, activity in tree}
    depth: dict[int, int] = {}
    for event, before, _ in tree:
        depth[event] = depth.get(before, 0) + 1
    inside = {activity for _, _, activity in tree}
    cycles = []
    for it in map(int, activities):
        if it not in inside:
            cycles.append(_cycle(network, it, above, depth))
    return cycles


def _cycle(
    network: PeriodicNetwork, closing: int, above: dict[int, tuple[int, int]], depth: dict[int, int]
) -> dict[int, int]:
    found = {closing: 1}
    start, end = int(network.second[closing]), int(network.first[closing])
    # From the second event of the closing activity up to the common one, and down to the first.
    while start != end:
        if depth.get(start, 0) >= depth.get(end, 0):
            before, activity = above[start]
            found[activity] = 1 if int(network.first[activity]) == start else -1
            start = before
        else:
            before, activity = above[end]
            found[activity] = 1 if int(network.second[activity]) == end else -1
            end = before
    return found


def _mixed(
    network: PeriodicNetwork,
    weights: Real,
    span: Whole,
    activities: Whole,
    cycles: list[dict[int, int]],
) -> Mixed:
    """Values: the slack of each activity, and then the whole number of each cycle."""
    place = {int(activity): column for column, activity in enumerate(activities)}
    costs = [float(weights[it]) for it in activities] + [0.0] * len(cycles)
    low, high = [0.0] * len(activities), [float(span[it]) for it in activities]
    cells, ends = [], []
    for row, cycle in enumerate(cycles):
        base = sum(sign * int(network.lower[it]) for it, sign in cycle.items())
        least = base - sum(int(span[it]) for it, sign in cycle.items() if sign < 0)
        most = base + sum(int(span[it]) for it, sign in cycle.items() if sign > 0)
        low.append(float(ceil(least / network.period)))
        high.append(float(floor(most / network.period)))
        cells += [Cell(row, place[it], float(sign)) for it, sign in cycle.items()]
        cells.append(Cell(row, len(activities) + row, -float(network.period)))
        ends.append(-float(base))
    is_whole = [False] * len(activities) + [True] * len(cycles)
    return Mixed(costs, low, high, is_whole, cells, ends, ends)
