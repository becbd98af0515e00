"""Datasets of any size that are made from a number: grids, rings with spokes, and random planar
networks, with names, coordinates, lines, and demand by gravity.

Demand between two stops is in proportion to the people at both and falls with the square of the
distance (the gravity model of trip distribution, J. D. Ortúzar and L. G. Willumsen, Modelling
Transport). The same number gives the same dataset."""

import itertools
import math
import random
from collections.abc import Callable
from pathlib import Path
from typing import NamedTuple

import networkx

from . import dataset, formats
from .cells import MILLION
from .demos import pool_rows
from .formats import Demand, Edge, Stop

MINUTES_FOR_LENGTH = 2  # of a drive, for each unit of length (a kilometre at 30 km/h)


class Network(NamedTuple):
    """Stops by their places, counted from 0, in units of length, and edges between them."""

    places: list[tuple[float, float]]
    edges: list[tuple[int, int]]

    def length(self, edge: tuple[int, int]) -> float:
        """The straight length of an edge, to a tenth, at least 0.1."""
        return max(0.1, round(math.dist(self.places[edge[0]], self.places[edge[1]]), 1))

    def graph(self) -> networkx.Graph:
        """The network for networkx, with lengths."""
        graph = networkx.Graph()
        graph.add_nodes_from(range(len(self.places)))
        graph.add_weighted_edges_from((*edge, self.length(edge)) for edge in self.edges)
        return graph


def grid(width: int, height: int, seed: int = 0) -> Network:
    """Streets at right angles; stops lie up to a fifth of their distance off the lines."""
    chance = random.Random(seed)
    cells = list(itertools.product(range(height), range(width)))
    off = [(chance.uniform(-0.2, 0.2), chance.uniform(-0.2, 0.2)) for _ in cells]
    places = [(column + a, row + b) for (row, column), (a, b) in zip(cells, off)]
    across = [(at, at + 1) for at in range(len(cells)) if at % width != width - 1]
    return Network(places, across + [(at, at + width) for at in range(len(cells) - width)])


def ring(spokes: int, rings: int, seed: int = 0) -> Network:
    """A centre, and rings round it that are joined by spokes."""
    turn = random.Random(seed).uniform(0, 2 * math.pi / spokes)
    places, edges = [(0.0, 0.0)], []
    for out, spoke in itertools.product(range(1, rings + 1), range(spokes)):
        angle = turn + 2 * math.pi * spoke / spokes
        places.append((out * math.cos(angle), out * math.sin(angle)))
        here = (out - 1) * spokes + spoke + 1
        edges.append((max(0, here - spokes) if out > 1 else 0, here))
        if spokes > 2:
            edges.append((here, (out - 1) * spokes + (spoke + 1) % spokes + 1))
    return Network(places, [(min(edge), max(edge)) for edge in edges])


def planar(stops: int, seed: int = 0) -> Network:
    """Stops at random places, and those edges of the Delaunay triangulation of which no third stop
    lies within the circle (K. R. Gabriel and R. R. Sokal, A new statistical approach to geographic
    variation analysis, 1969): connected, and without crossings."""
    from scipy.spatial import Delaunay

    chance, side = random.Random(seed), math.sqrt(stops)
    places = [(chance.uniform(0, side), chance.uniform(0, side)) for _ in range(stops)]
    if stops < 4:
        return Network(places, [(at, at + 1) for at in range(stops - 1)])
    corners = Delaunay(places).simplices
    pairs = {(min(a, b), max(a, b)) for it in corners for a, b in itertools.combinations(it, 2)}
    edges = [(int(a), int(b)) for a, b in sorted(pairs)]
    return Network(places, [edge for edge in edges if _is_gabriel(places, edge)])


def _is_gabriel(places: list[tuple[float, float]], edge: tuple[int, int]) -> bool:
    (ax, ay), (bx, by) = places[edge[0]], places[edge[1]]
    middle, radius = ((ax + bx) / 2, (ay + by) / 2), math.dist((ax, ay), (bx, by)) / 2
    return all(
        math.dist(middle, place) >= radius for at, place in enumerate(places) if at not in edge
    )


def lines_of(network: Network, pairs: int, seed: int = 0) -> list[list[int]]:
    """Lines as edges by id: shortest paths between so many random pairs of stops, and lines that
    cover the edges which these leave out."""
    chance, graph = random.Random(seed), network.graph()
    number = {edge: at for at, edge in enumerate(network.edges, 1)}
    left, lines = set(number.values()), []
    for _ in range(pairs):
        start, end = chance.sample(range(len(network.places)), 2)
        stops = networkx.shortest_path(graph, start, end, weight="weight")
        lines.append(_edges_along(number, stops))
    for line in lines:
        left -= set(line)
    while left:
        stops = list(network.edges[min(left) - 1])
        left.discard(min(left))
        while ways := [at for at in graph[stops[-1]] if _id(number, stops[-1], at) in left]:
            left.discard(_id(number, stops[-1], ways[0]))
            stops.append(ways[0])
        lines.append(_edges_along(number, stops))
    return [list(it) for it in dict.fromkeys(tuple(line) for line in lines)]


def _id(number: dict[tuple[int, int], int], a: int, b: int) -> int:
    return number[min(a, b), max(a, b)]


def _edges_along(number: dict[tuple[int, int], int], stops: list[int]) -> list[int]:
    return [_id(number, a, b) for a, b in itertools.pairwise(stops)]


def gravity(network: Network, customers: int, seed: int = 0) -> list[Demand]:
    """About so many customers in all, between all stops that any would travel between."""
    chance = random.Random(seed)
    people = [chance.lognormvariate(0, 0.8) for _ in network.places]
    pulls: dict[tuple[int, int], float] = {}
    for a, b in itertools.permutations(range(len(people)), 2):
        far = max(0.5, math.dist(network.places[a], network.places[b]))
        pulls[a, b] = people[a] * people[b] / far**2
    whole = sum(pulls.values()) or 1.0
    counts = {pair: round(customers * pull / whole) for pair, pull in pulls.items()}
    return [Demand(a + 1, b + 1, n * MILLION) for (a, b), n in counts.items() if n]


def write(
    folder: str | Path,
    network: Network,
    lines: list[list[int]],
    demand: list[Demand],
    settings: dict[str, int | str] | None = None,
) -> None:
    """Writes a dataset."""
    stops = [
        Stop(at, f"S{at}", f"Stop {at}", f"{x:.3f}", f"{y:.3f}")
        for at, (x, y) in enumerate(network.places, 1)
    ]
    edges = []
    for at, edge in enumerate(network.edges, 1):
        length = network.length(edge)
        minutes = max(1, round(length * MINUTES_FOR_LENGTH))
        ends = edge[0] + 1, edge[1] + 1
        edges.append(Edge(at, *ends, round(length * 10) * MILLION // 10, minutes, minutes + 1))
    dataset.write(folder, formats.STOPS, stops)
    dataset.write(folder, formats.EDGES, edges)
    dataset.write(folder, formats.POOL, pool_rows(lines))
    dataset.write(folder, formats.DEMAND, demand)
    if settings:
        dataset.write_settings(folder, settings)


Maker = Callable[[int, int], Network]
KINDS: dict[str, Maker] = {
    "grid": lambda stops, seed: grid(round(math.sqrt(stops)), round(math.sqrt(stops)), seed),
    "ring": lambda stops, seed: ring(6, max(1, round((stops - 1) / 6)), seed),
    "planar": planar,
}
