"""Lengths of edges: what the feed tells of distances along trips, else the way of a shape, else the
great circle between two stations.

`shape_dist_traveled` has any unit. It is compared with the kilometres between stations: where it is
near kilometres, metres, miles or feet, lengths become kilometres, and else they keep its unit. A
feed that `lintim-gtfs export` wrote has the lengths of a dataset, and gives them back.
"""

import math
from typing import NamedTuple

from ..cells import MILLION
from .cells import degrees_of, whole_of
from .routes import PUBLISHER
from .feed import Feed
from .lines import Part, pairs_of
from .places import KM_PER_DEGREE, distance_km
from .stations import Stations

UNITS = {"kilometres": 1.0, "metres": 1000.0, "miles": 0.621371, "feet": 3280.84}
SHORTEST = 0.001  # of stations at one place
LONGEST = 10_000 * MILLION
UNKNOWN = 1.0  # kilometres between stations of which one has no place
Pair = tuple[int, int]
Point = tuple[float, float]


class Lengths(NamedTuple):
    """The length of each edge in millionths, and what they are."""

    of: dict[Pair, int]
    says: str


def lengths_of(parts: list[Part], stations: Stations, feed: Feed) -> Lengths:
    """The lengths of all edges, by their two stations, the lesser one first."""
    told: dict[Pair, float] = {}
    shapes: dict[Pair, str] = {}
    for part, a, b in pairs_of(parts):
        pair = (min(a.station, b.station), max(a.station, b.station))
        shapes.setdefault(pair, part.ride.shape)
        if pair not in told and a.walked_out is not None and b.walked_in is not None:
            if b.walked_in > a.walked_out:
                told[pair] = b.walked_in - a.walked_out
    straight = {pair: _straight(stations, pair) for pair in shapes}
    ratio = _ratio(told, straight)
    rest = {pair: shapes[pair] for pair in shapes if pair not in told}
    km = straight | _along_shapes(rest, stations, feed, straight)
    unit, factor = _unit(ratio)
    if told and _is_ours(feed):
        says = "lengths as in the dataset from which the feed comes"
    elif not told:
        says = "lengths in kilometres from places"
    elif unit:
        told = {pair: length / factor for pair, length in told.items()}
        says, ratio = f"lengths in kilometres; the feed tells {unit}", 1.0
    else:
        says = "lengths in the unit of the feed, which is none of kilometres, metres, miles, feet"
    rest_of = {pair: max(km[pair] * (ratio or 1.0), SHORTEST) for pair in rest}
    return Lengths({pair: _millionths((told | rest_of)[pair]) for pair in shapes}, says)


def _is_ours(feed: Feed) -> bool:
    """Whether `lintim-gtfs export` wrote a feed."""
    names = feed.records("feed_info.txt", "feed_publisher_name")
    return [cells for _, cells in names] == [[PUBLISHER]]


def _millionths(length: float) -> int:
    return min(max(round(length * MILLION), 1), LONGEST)


def _straight(stations: Stations, pair: Pair) -> float:
    a, b = (stations[it].at for it in pair)
    return UNKNOWN if a is None or b is None else distance_km(a, b)


def _ratio(told: dict[Pair, float], straight: dict[Pair, float]) -> float | None:
    """The unit of the feed for a kilometre, 0 or none where that cannot be told."""
    km = sum(straight[pair] for pair in told)
    return sum(told.values()) / km if km > 0 else None


def _unit(ratio: float | None) -> tuple[str, float]:
    """The name of a unit, and how many of them are a kilometre: a way is as long as the straight
    line or up to one and a half times so long."""
    for name, factor in UNITS.items():
        if ratio is not None and 0.9 <= ratio / factor <= 1.5:
            return name, factor
    return "", 1.0


def _along_shapes(
    shapes: dict[Pair, str], stations: Stations, feed: Feed, straight: dict[Pair, float]
) -> dict[Pair, float]:
    """The kilometres of edges along the shapes of trips, where these pass by both stations."""
    points = _points(feed, {shape for shape in shapes.values() if shape})
    found = {}
    for pair, shape in shapes.items():
        a, b = (stations[it].at for it in pair)
        if shape in points and a is not None and b is not None:
            length = _between(points[shape], a, b)
            if straight[pair] * 0.9 <= length <= straight[pair] * 10 + 1:
                found[pair] = max(length, straight[pair])
    return found


def _points(feed: Feed, wanted: set[str]) -> dict[str, list[Point]]:
    """The points of shapes in their order."""
    rows: dict[str, list[tuple[int, Point]]] = {}
    names = "shape_id shape_pt_sequence shape_pt_lat shape_pt_lon"
    if wanted:
        for _, (shape, order, *at) in feed.records("shapes.txt", *names.split()):
            place = whole_of(order)
            north, east = degrees_of(at[0], 90), degrees_of(at[1], 180)
            if shape in wanted and None not in (place, north, east):
                rows.setdefault(shape, []).append((place or 0, (north or 0.0, east or 0.0)))
    return {shape: [point for _, point in sorted(of)] for shape, of in rows.items()}


def _between(points: list[Point], a: Point, b: Point) -> float:
    """The kilometres along a shape between the points of it that lie nearest to two places."""
    stretch = math.cos(math.radians(a[0]))
    plane = [(north * KM_PER_DEGREE, east * KM_PER_DEGREE * stretch) for north, east in points]
    ends = [(it[0] * KM_PER_DEGREE, it[1] * KM_PER_DEGREE * stretch) for it in (a, b)]
    best = [(math.inf, 0.0), (math.inf, 0.0)]
    walked = 0.0
    for p, q in zip(plane, plane[1:]):
        step = math.dist(p, q)
        for at, end in enumerate(ends):
            part = _part(p, q, end, step)
            near = math.dist(end, (p[0] + part * (q[0] - p[0]), p[1] + part * (q[1] - p[1])))
            if near < best[at][0] - 1e-9:
                best[at] = near, walked + part * step
        walked += step
    return abs(best[1][1] - best[0][1])


def _part(p: Point, q: Point, end: Point, step: float) -> float:
    """Where on the way from p to q, from 0 to 1, a place is nearest."""
    if step == 0:
        return 0.0
    along = (end[0] - p[0]) * (q[0] - p[0]) + (end[1] - p[1]) * (q[1] - p[1])
    return min(1.0, max(0.0, along / step**2))
