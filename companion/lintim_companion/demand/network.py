"""The network as demand sees it: least minutes from stop to stop over edges that lines drive, and
what these lines offer."""

from dataclasses import dataclass, field
from typing import Any

import numpy
from scipy.sparse import csr_matrix
from scipy.sparse.csgraph import dijkstra

from ..dataset import Dataset
from ..faults import Refused
from ..formats import CONCEPT, EDGES, PINNED_CONCEPT, POOL, STOPS, Edge

Real = Any  # an array of floats
LEAST_MINUTES = 1.0


@dataclass
class Supply:
    """Stops by their places, edges, how often each edge is driven in a period, and from where."""

    stops: list[int]
    edges: list[Edge]
    often: dict[int, int]
    source: str
    places: dict[int, int] = field(default_factory=dict)

    def minutes(self) -> tuple[Real, Real]:
        """The least minutes between stops, infinite where no way leads, and for each stop and goal
        the stop before the goal."""
        count = len(self.stops)
        best: dict[tuple[int, int], float] = {}
        for edge in self.edges:
            if self.often.get(edge.edge_id):
                a, b = self.places[edge.left_stop], self.places[edge.right_stop]
                for two in ((a, b), (b, a)):
                    best[two] = min(best.get(two, numpy.inf), max(LEAST_MINUTES, edge.lower_bound))
        rows, columns = (numpy.array([it[at] for it in best], dtype=int) for at in (0, 1))
        graph = csr_matrix((numpy.array([*best.values()], float), (rows, columns)), (count, count))
        found: tuple[Real, Real] = dijkstra(graph, return_predecessors=True)
        return found

    def departures(self) -> Real:
        """How many vehicles leave each stop in a period, over all edges in both directions."""
        found = numpy.zeros(len(self.stops))
        for edge in self.edges:
            for stop in (edge.left_stop, edge.right_stop):
                found[self.places[stop]] += self.often.get(edge.edge_id, 0)
        return found


def supply_of(data: Dataset) -> Supply:
    """The network of a dataset, with the drives of the pinned concept, else of the one that was
    made, else one drive for each line of the pool."""
    stops = [it.stop_id for it in data[STOPS]]
    places = {stop: at for at, stop in enumerate(stops)}
    edges = list(data[EDGES])
    for edge in edges:
        for stop in (edge.left_stop, edge.right_stop):
            if stop not in places:
                raise Refused(f"{EDGES.name}: edge {edge.edge_id} has the unknown stop {stop}")
    often: dict[int, int] = {}
    source = next((it for it in (PINNED_CONCEPT, CONCEPT) if it in data), None)
    if source is not None:
        for row in data[source]:
            often[row.edge_id] = often.get(row.edge_id, 0) + row.frequency
        return Supply(stops, edges, often, source.name, places)
    for of_pool in data.get(POOL):
        often[of_pool.edge_id] = often.get(of_pool.edge_id, 0) + 1
    if not often:
        often = {edge.edge_id: 1 for edge in edges}
        return Supply(stops, edges, often, f"{EDGES.name}, each edge once", places)
    return Supply(stops, edges, often, f"{POOL.name}, each line once", places)


def loads(supply: Supply, customers: Real, before: Real) -> dict[int, float]:
    """The customers over each edge in the direction with more of them, where all take ways of
    least minutes (all or nothing, J. D. Ortuzar and L. G. Willumsen, Modelling Transport)."""
    edge_of: dict[tuple[int, int], Edge] = {}
    for edge in supply.edges:
        if supply.often.get(edge.edge_id):
            a, b = supply.places[edge.left_stop], supply.places[edge.right_stop]
            key = (min(a, b), max(a, b))
            if key not in edge_of or edge.lower_bound < edge_of[key].lower_bound:
                edge_of[key] = edge
    flow: dict[tuple[int, int], float] = {}
    for start in range(len(supply.stops)):
        _add_flows(customers[start], before[start], start, flow)
    found: dict[int, float] = {}
    for (a, b), count in flow.items():
        edge_id = edge_of[(min(a, b), max(a, b))].edge_id
        found[edge_id] = max(found.get(edge_id, 0.0), count)
    return found


def filling(supply: Supply, customers: Real, before: Real, places: float) -> float:
    """How many customers, spread as these are, go over edges as often as these are driven, with so
    many in each drive, summed over all edges."""
    offered = sum(supply.often.get(edge.edge_id, 0) for edge in supply.edges) * places
    over = sum(loads(supply, customers, before).values())
    return float(customers.sum()) * offered / over


def _add_flows(
    customers: Real, before: Real, start: int, flow: dict[tuple[int, int], float]
) -> None:
    """Adds the customers from one stop, from the leaves of its tree of ways to its root."""
    depth = {start: 0}
    for goal in numpy.flatnonzero(before >= 0):
        way = [int(goal)]
        while way[-1] not in depth:
            way.append(int(before[way[-1]]))
        for stop in reversed(way[:-1]):
            depth[stop] = depth[int(before[stop])] + 1
    through = {stop: float(customers[stop]) for stop in depth}
    for stop in sorted(depth, key=lambda it: -depth[it]):
        if stop != start and through[stop]:
            two = int(before[stop]), stop
            flow[two] = flow.get(two, 0.0) + through[stop]
            through[two[0]] += through[stop]
