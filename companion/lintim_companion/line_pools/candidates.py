"""Lines that might be in a pool, as the stops that they pass.

Paths are the k shortest ones without a stop twice between each two terminals (J. Y. Yen, Finding
the k shortest loopless paths in a network, Management Science 17, 1971). Trees are spanning trees
of least minutes, in which an edge counts more with each line that goes over it already, so that
each further tree takes other edges (P. Gattermann, J. Harbering and A. Schöbel, Line pool
generation, Public Transport 9, 2017); the ways in a tree between its ends and terminals are lines.
"""

import itertools
from collections.abc import Iterator

import networkx

from ..dataset import Dataset
from ..faults import Refused, WrongWords
from ..formats import DEMAND, EDGES, STOPS
from ..manners import Deadline, Progress

Line = tuple[int, ...]
DETOUR = 1.5  # how many times as long as the shortest way a path may be
MOST_TERMINALS = 12  # where none are named
MOST_TREES = 40


def network_of(data: Dataset) -> networkx.Graph:
    """Stops, and between each two the edge of least minutes, of these the one of least id."""
    see_edges(data)
    graph = networkx.Graph()
    graph.add_nodes_from(sorted(stop.stop_id for stop in data[STOPS]))
    for edge in sorted(data[EDGES], key=lambda edge: (edge.lower_bound, edge.edge_id)):
        if not graph.has_edge(edge.left_stop, edge.right_stop):
            minutes, used = edge.lower_bound, edge.edge_id
            graph.add_edge(edge.left_stop, edge.right_stop, minutes=minutes, edge=used)
    return graph


def see_edges(data: Dataset) -> None:
    """Sees that edges are ones over which lines can go; `lintim make` says more."""
    stops, seen = {stop.stop_id for stop in data[STOPS]}, set()
    for edge in data[EDGES]:
        ends = {edge.left_stop, edge.right_stop}
        for is_bad, why in (
            (edge.edge_id in seen, "is there twice"),
            (not ends <= stops, "has a stop that is not there"),
            (len(ends) == 1, "leads from a stop to the same stop"),
            (edge.lower_bound == 0, "takes no minute"),
        ):
            if is_bad:
                raise Refused(f"{EDGES.name}: edge {edge.edge_id} {why}; lintim-why says more")
        seen.add(edge.edge_id)


def terminals_of(data: Dataset, graph: networkx.Graph, named: list[int]) -> list[int]:
    """The terminals that are named; where none are, the ends of the network, and then the stops
    with most customers, to twelve of them."""
    if named:
        for stop in named:
            if stop not in graph:
                raise WrongWords(f"--terminals has {stop}, and no such stop is there")
        return sorted(set(named))
    customers = {stop: 0 for stop in graph}
    for row in data.get(DEMAND):
        for stop in (row.from_stop, row.to_stop):
            customers[stop] = customers.get(stop, 0) + row.customers
    stops = [stop for stop in graph if graph.degree(stop)]
    order = sorted(stops, key=lambda it: (graph.degree(it) > 1, -customers[it], it))
    return sorted(order[:MOST_TERMINALS])


def paths(
    graph: networkx.Graph, ends: list[int], each: int, deadline: Deadline, progress: Progress
) -> Iterator[Line]:
    """The shortest paths between each two terminals, so many of each; those of least minutes of all
    pairs come first."""
    pairs = [*itertools.combinations(ends, 2)]
    for at, (start, end) in enumerate(pairs):
        progress.tell(f"{at} of {len(pairs)} pairs of terminals")
        if deadline.is_over() or not networkx.has_path(graph, start, end):
            continue
        found = networkx.shortest_simple_paths(graph, start, end, weight="minutes")
        least = 0
        for path in itertools.islice(found, each):
            minutes = networkx.path_weight(graph, path, "minutes")
            least = least or minutes
            if minutes > DETOUR * least:
                break
            yield tuple(path)


def trees(
    graph: networkx.Graph, ends: list[int], deadline: Deadline, progress: Progress
) -> Iterator[Line]:
    """Ways in spanning trees between their ends, and between terminals, until each edge was in a
    tree."""
    left = {frozenset(edge) for edge in graph.edges}
    weights = {frozenset(edge): float(graph.edges[edge]["minutes"]) for edge in graph.edges}
    for count in range(MOST_TREES):
        progress.tell(f"{count} trees, {len(left)} edges in none")
        if not left or deadline.is_over():
            return
        for a, b in graph.edges:
            graph.edges[a, b]["now"] = weights[frozenset((a, b))]
        tree = networkx.minimum_spanning_tree(graph, weight="now")
        leaves = [stop for stop in tree if tree.degree(stop) == 1]
        for start, end in itertools.combinations(sorted({*leaves, *ends}), 2):
            if networkx.has_path(tree, start, end):
                yield tuple(networkx.shortest_path(tree, start, end))
        for edge in map(frozenset, tree.edges):
            left.discard(edge)
            weights[edge] *= 2
