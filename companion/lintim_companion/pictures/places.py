"""Where stops lie in pictures of the network, in a square of 1,000 by 1,000."""

import math
from typing import Any

from ..formats import EDGES, STOPS
from ..manners import see_package
from ..registry import NETWORKX, SCIPY
from .plan import Index, Plan

SIDE = 1000.0
Place = tuple[float, float]


def stop_places(plan: Plan) -> tuple[dict[int, Place], bool]:
    """The place of each stop, and whether it comes from the coordinates. These say nothing where
    one is no number, or where more than half of the stops share their place with another one."""
    found = {}
    for stop in plan.data[STOPS]:
        here = number(stop.x_coordinate), number(stop.y_coordinate)
        if None not in here:
            found[stop.stop_id] = here
    given = {id: (x, y) for id, (x, y) in found.items() if x is not None and y is not None}
    count = len(plan.data[STOPS])
    if len(given) == count and 2 * len({*given.values()}) > count:
        return fitted(given), True
    return fitted(by_distances(plan)), False


def number(text: str) -> float | None:
    """The number that a cell of coordinates says, if it does."""
    try:
        value = float(text)
    except ValueError:
        return None
    return value if math.isfinite(value) and abs(value) < 1e12 else None


def fitted(places: dict[int, Place]) -> dict[int, Place]:
    """The places, moved and scaled alike in both directions so that they fill the square."""
    if not places:
        return {}
    left, low = (min(place[axis] for place in places.values()) for axis in (0, 1))
    right, high = (max(place[axis] for place in places.values()) for axis in (0, 1))
    scale = SIDE / (max(right - left, high - low) or 1.0)
    return {
        id: (round((x - left) * scale, 2), round((y - low) * scale, 2))
        for id, (x, y) in places.items()
    }


def by_distances(plan: Plan) -> dict[int, Place]:
    """A layout in which distances are near to those along edges: by springs (T. Kamada and S. Kawai,
    An algorithm for drawing general undirected graphs, 1989) for up to 100 stops, else by classical
    scaling (W. S. Torgerson, Multidimensional scaling, 1952)."""
    for package in (SCIPY, NETWORKX):
        see_package(package)
    import networkx
    import numpy
    from scipy.sparse.csgraph import shortest_path

    ids = [stop.stop_id for stop in plan.data[STOPS]]
    at = Index("stop", STOPS, {id: place for place, id in enumerate(ids)})
    lengths = numpy.full((len(ids), len(ids)), numpy.inf)
    for edge in plan.data[EDGES]:
        ends = at[edge.left_stop], at[edge.right_stop]
        length = max(edge.length, 1) / 1e6
        lengths[ends] = lengths[ends[::-1]] = min(float(lengths[ends]), length)
    apart = shortest_path(numpy.where(numpy.isfinite(lengths), lengths, 0.0), directed=False)
    far = apart[numpy.isfinite(apart)].max(initial=1.0)
    apart[~numpy.isfinite(apart)] = 1.5 * far
    if len(ids) > 100:
        return dict(zip(ids, scaled(apart)))
    start = {id: numpy.array(place) for id, place in zip(ids, scaled(apart))}
    for turn, id in enumerate(ids):  # stops that lie on one another are moved apart a little
        start[id] += 0.01 * far * numpy.array((math.cos(turn), math.sin(turn)))
    graph = networkx.Graph()
    graph.add_nodes_from(ids)
    table = {a: {b: float(apart[at[a], at[b]]) or 1.0 for b in ids} for a in ids}
    laid = networkx.kamada_kawai_layout(graph, dist=table, pos=start, weight=None)
    return {id: (float(x), float(y)) for id, (x, y) in laid.items()}


def scaled(apart: Any) -> list[Place]:
    """Places in the plane by classical scaling of distances."""
    import numpy

    middle = numpy.eye(len(apart)) - 1.0 / max(len(apart), 1)
    values, vectors = numpy.linalg.eigh(-0.5 * middle @ apart**2 @ middle)
    found = []
    for place in (-1, -2):
        if len(apart) < -place:
            found.append(numpy.zeros(len(apart)))
            continue
        vector = vectors[:, place] * math.sqrt(max(values[place], 0.0))
        top = vector[numpy.argmax(numpy.abs(vector) > 0.99 * numpy.abs(vector).max(initial=0))]
        found.append(vector if top >= 0 else -vector)
    return [(float(x), float(y)) for x, y in zip(*found)]
