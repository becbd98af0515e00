"""A second look at who is direct: it shares nothing with the program that found the concept.

Each customer who sits in a line is followed over the edges of the pool, the seats that he takes are
counted, and the minutes of his way are compared with least ones by networkx."""

from collections import defaultdict
from collections.abc import Iterable

import networkx

from ..dataset import Dataset
from ..faults import Refused
from ..formats import DEMAND, EDGES, POOL, ConceptRow, Edge

LITTLE = 1e-3  # customers by which HiGHS may round
Sat = tuple[int, int, int, float]  # a line by id, places among its stops, and customers


def direct_travellers(data: Dataset, concept: list[ConceptRow], seated: Iterable[Sat]) -> float:
    """How many customers are direct, where these sit. Faults where a seat is taken twice, a way is
    no shortest one, or somebody is there twice."""
    least = _least_minutes(data)
    ways = _ways(data)
    taken: dict[tuple[int, int, bool], float] = defaultdict(float)
    direct: dict[tuple[int, int], float] = defaultdict(float)
    for line, start, end, customers in seated:
        low, high = min(start, end), max(start, end)
        stops = _stops(ways[line])
        here, there = stops[start], stops[end]
        if sum(it.lower_bound for it in ways[line][low:high]) != least[here][there]:
            raise Refused(f"line {line} is no shortest way from stop {here} to stop {there}")
        direct[here, there] += customers
        for place in range(low, high):
            taken[line, place, start < end] += customers
    often = {row.line_id: row.frequency for row in concept}
    seats = data.settings.gen_passengers_per_vehicle
    for (line, _, _), customers in taken.items():
        if customers > often.get(line, 0) * seats + LITTLE:
            raise Refused(f"line {line} has fewer seats than the customers who sit there")
    wanted: dict[tuple[int, int], float] = defaultdict(float)
    for asked in data[DEMAND]:
        wanted[asked.from_stop, asked.to_stop] += asked.customers / 10**6
    for pair, customers in direct.items():
        if customers > wanted[pair] + LITTLE:
            raise Refused(f"more customers sit from stop {pair[0]} to {pair[1]} than there are")
    return sum(direct.values())


def _least_minutes(data: Dataset) -> dict[int, dict[int, int]]:
    """The least minutes between all stops."""
    network = networkx.MultiGraph()
    for edge in data[EDGES]:
        network.add_edge(edge.left_stop, edge.right_stop, minutes=edge.lower_bound)
    return dict(networkx.all_pairs_dijkstra_path_length(network, weight="minutes"))


def _ways(data: Dataset) -> dict[int, list[Edge]]:
    """The edges of each line of the pool, in order."""
    edges = {edge.edge_id: edge for edge in data[EDGES]}
    found: dict[int, list[Edge]] = defaultdict(list)
    for row in sorted(data[POOL], key=lambda row: (row.line_id, row.order)):
        found[row.line_id].append(edges[row.edge_id])
    return found


def _stops(ways: list[Edge]) -> list[int]:
    """The stops of a line: of the two ends of its first edge it begins with the one from which all
    others follow."""
    for start in (ways[0].left_stop, ways[0].right_stop):
        stops = [start]
        for way in ways:
            if stops[-1] not in (way.left_stop, way.right_stop):
                break
            stops.append(way.left_stop + way.right_stop - stops[-1])
        if len(stops) > len(ways):
            return stops
    raise Refused("a line of the pool has edges that do not meet")
