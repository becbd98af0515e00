"""The change-and-go network of a pool (A. Schöbel and S. Scholl, Line planning with minimal
traveling time, ATMOS 2005): a node for each stop, one for each stop of each line, arcs along lines,
and arcs by which one gets on and off. To get on counts a penalty, which is taken off once for each
customer.

An arc belongs to a pair of stops only where a way over it can be as good as what each concept
offers: edges that are driven at least once are there in any, at worst with a change at each
stop."""

from dataclasses import dataclass
from functools import cached_property

import numpy
from numpy.typing import NDArray
from scipy.sparse import csr_matrix
from scipy.sparse.csgraph import dijkstra

from ..faults import Refused
from ..schedules.problem import least_minutes
from .travel import Pair, Travel

Whole = NDArray[numpy.int64]
Real = NDArray[numpy.float64]
LITTLE = 1e-9


@dataclass(frozen=True)
class ChangeAndGo:
    """Arcs from node to node with minutes; the line that one gets on by an arc, or -1. The first
    nodes are the stops, by `place`."""

    place: dict[int, int]
    tail: Whole
    head: Whole
    minutes: Real
    line: Whole
    nodes: int
    penalty: int

    def matrix(self, minutes: Real) -> csr_matrix:
        """The arcs with these minutes, for SciPy. 0 minutes are kept as very few."""
        shape = (self.nodes, self.nodes)
        return csr_matrix((numpy.maximum(minutes, LITTLE), (self.tail, self.head)), shape=shape)

    @cached_property
    def least(self) -> Real:
        """The least minutes from each stop to each node, where all lines are driven."""
        found: Real = dijkstra(self.matrix(self.minutes), indices=range(len(self.place)))
        return found


def change_and_go(it: Travel, penalty: int) -> ChangeAndGo:
    """The network of a pool, with so many minutes for a change."""
    known = {stop for stops in it.stops for stop in stops}
    known |= {at for two in it.customers for at in two}
    place = {stop: at for at, stop in enumerate(sorted(known))}
    arcs: list[tuple[int, int, float, int]] = []
    node = len(place)
    for line, stops in enumerate(it.stops):
        for at, stop in enumerate(stops):
            arcs += [(place[stop], node, penalty, line), (node, place[stop], 0, -1)]
            if at:
                minutes = it.minutes[line][at - 1]
                arcs += [(node - 1, node, minutes, -1), (node, node - 1, minutes, -1)]
            node += 1
    tail, head, minutes_of, lines = zip(*arcs) if arcs else ((), (), (), ())
    return ChangeAndGo(
        place,
        numpy.array(tail, dtype=numpy.int64),
        numpy.array(head, dtype=numpy.int64),
        numpy.array(minutes_of, dtype=float),
        numpy.array(lines, dtype=numpy.int64),
        node,
        penalty,
    )


@dataclass(frozen=True)
class Wish:
    """Customers between two stops, in either direction, the minutes that any concept offers them
    with the penalty for getting on, and the arcs that can be of use to them."""

    start: int
    end: int
    customers: float
    worst: float
    arcs: Whole


def wishes(it: Travel, network: ChangeAndGo) -> list[Wish]:
    """The pairs of stops with their arcs; a way back takes as long as the way there."""
    both: dict[Pair, float] = {}
    for (a, b), customers in it.customers.items():
        both[min(a, b), max(a, b)] = both.get((min(a, b), max(a, b)), 0.0) + customers
    found, worst = [], _worst(it, network.penalty)
    ends = network.least
    for (a, b), customers in both.items():
        most = worst.get(a, {}).get(b)
        if most is None:
            raise Refused(
                f"from stop {a} to stop {b} no way is driven by each concept: a minimal"
                " frequency of 0 in the loads leaves it out, so no time can be told"
            )
        start, end = network.place[a], network.place[b]
        through = ends[start][network.tail] + network.minutes + _to(network, end)[network.head]
        kept = numpy.flatnonzero(through <= most + 1e-6)
        found.append(Wish(start, end, customers, float(most), kept))
    return found


def _to(network: ChangeAndGo, end: int) -> Real:
    """The least minutes from each node to a stop: as long as from there, but who is in a line
    has got on already."""
    in_line = numpy.arange(network.nodes) >= len(network.place)
    found: Real = network.least[end] - numpy.where(in_line, float(network.penalty), 0.0)
    return found


def _worst(it: Travel, penalty: int) -> dict[int, dict[int, int]]:
    """The least minutes where each edge that is driven in any case is a line of its own."""
    ways = {
        stop: [(other, minutes + penalty) for other, minutes in there]
        for stop, there in it.always.items()
    }
    ends = {at for two in it.customers for at in two}
    return {stop: least_minutes(ways, stop) for stop in sorted(ends)}
