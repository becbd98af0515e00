"""Which candidates make a pool: first all edges that lines can cover have one, and then the line
with which most further customers are direct comes next. Where no line makes more customers
direct, those on which most are direct anyway follow, until there are as many as wanted: a
concept is to choose."""

import itertools
from typing import NamedTuple

import networkx

from ..dataset import Dataset
from ..formats import DEMAND
from ..manners import Progress
from .candidates import Line

Pair = tuple[int, int]


class Choice(NamedTuple):
    """The lines of a pool, and the edges, as pairs of stops, that no candidate covers."""

    lines: list[Line]
    uncovered: list[Pair]


def customers_of(data: Dataset) -> dict[Pair, int]:
    """The customers between two stops in both directions, in millionths."""
    found: dict[Pair, int] = {}
    for row in data.get(DEMAND):
        pair = min(row.from_stop, row.to_stop), max(row.from_stop, row.to_stop)
        if row.customers and pair[0] != pair[1]:
            found[pair] = found.get(pair, 0) + row.customers
    return found


def chosen(
    graph: networkx.Graph,
    candidates: list[Line],
    customers: dict[Pair, int],
    most: int,
    progress: Progress,
) -> Choice:
    """At most so many candidates. Of equal ones the first is taken."""
    least = dict(networkx.all_pairs_dijkstra_path_length(graph, weight="minutes"))
    known = {min(line, line[::-1]): None for line in candidates if len(line) > 1}
    edges = {line: {_pair(*two) for two in itertools.pairwise(line)} for line in known}
    direct = {line: _direct(graph, line, customers, least) for line in known}
    whole = {line: sum(customers[pair] for pair in direct[line]) for line in known}
    carried = _carried(graph, customers)
    covered: set[Pair] = set()
    served: set[Pair] = set()
    lines: list[Line] = []

    def gain(line: Line) -> tuple[int, int, int, int]:
        new = edges[line] - covered
        more = sum(customers[pair] for pair in direct[line] - served)
        return sum(edge in carried for edge in new), more, len(new), whole[line]

    while len(lines) < most and known:
        progress.tell(f"{len(lines)} lines chosen of {len(edges)} candidates")
        best = max(known, key=gain)
        if not any(gain(best)):
            break
        lines.append(best)
        covered |= edges[best]
        served |= direct[best]
        del known[best]
    every = {_pair(*edge) for edge in graph.edges}
    return Choice(lines, sorted(every - covered))


def _pair(a: int, b: int) -> Pair:
    return min(a, b), max(a, b)


def _direct(
    graph: networkx.Graph,
    line: Line,
    customers: dict[Pair, int],
    least: dict[int, dict[int, int]],
) -> set[Pair]:
    """The pairs for whom a line is a way of least minutes."""
    found, times = set(), [0]
    for two in itertools.pairwise(line):
        times.append(times[-1] + graph.edges[two]["minutes"])
    for (a, start), (b, end) in itertools.combinations(zip(line, times), 2):
        if _pair(a, b) in customers and end - start == least[a][b]:
            found.add(_pair(a, b))
    return found


def _carried(graph: networkx.Graph, customers: dict[Pair, int]) -> set[Pair]:
    """The edges on some shortest way of customers: these have to be driven."""
    found: set[Pair] = set()
    starts = {pair[0] for pair in customers} & set(graph)
    for start in sorted(starts):
        ways = networkx.single_source_dijkstra_path(graph, start, weight="minutes")
        for _, end in (pair for pair in customers if pair[0] == start):
            found |= {_pair(*two) for two in itertools.pairwise(ways.get(end, ()))}
    return found
