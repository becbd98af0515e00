"""Where stops lie: degrees of a dataset, plane coordinates that are put somewhere on the earth, and
distances (great circles on a sphere of the mean radius of the earth, 6371.0088 km)."""

import math
from collections.abc import Sequence
from typing import NamedTuple

from ..cells import MILLION
from ..faults import Refused
from ..formats import Edge, Stop
from .cells import degrees_of, number_of

RADIUS = 6371.0088  # km
KM_PER_DEGREE = math.pi * RADIUS / 180
TOO_FAR = 40  # kilometres between two stops for a unit of length of their edge


class Place(NamedTuple):
    """A place as texts of degrees."""

    latitude: str
    longitude: str


def distance_km(a: tuple[float, float], b: tuple[float, float]) -> float:
    """The kilometres between two places, latitude and longitude in degrees (haversine formula)."""
    (north_a, east_a), (north_b, east_b) = (tuple(map(math.radians, it)) for it in (a, b))
    part = (
        math.sin((north_b - north_a) / 2) ** 2
        + math.cos(north_a) * math.cos(north_b) * math.sin((east_b - east_a) / 2) ** 2
    )
    return 2 * RADIUS * math.asin(min(1.0, math.sqrt(part)))


def degrees(stops: Sequence[Stop], edges: Sequence[Edge]) -> dict[int, Place]:
    """The places of stops whose coordinates are degrees, x a longitude and y a latitude."""
    remedy = "--place LAT,LON --scale METRES puts the stops somewhere"
    at: dict[int, tuple[float, float]] = {}
    for stop in stops:
        north = degrees_of(stop.y_coordinate, 90)
        east = degrees_of(stop.x_coordinate, 180)
        if north is None or east is None:
            found = f"x {stop.x_coordinate!r}, y {stop.y_coordinate!r}"
            raise Refused(f"stop {stop.stop_id}: {found} are no degrees; {remedy}")
        at[stop.stop_id] = (north, east)
    if len(at) > 1 and len(set(at.values())) == 1:
        raise Refused(f"all stops have the same coordinates; {remedy}")
    _see_lengths(edges, at, remedy)
    return {
        stop.stop_id: Place(stop.y_coordinate.strip(), stop.x_coordinate.strip()) for stop in stops
    }


def _see_lengths(edges: Sequence[Edge], at: dict[int, tuple[float, float]], remedy: str) -> None:
    """Sees that edges are not far shorter than the ways between their stops: plane coordinates in
    kilometres would be some hundred times as far apart if they were degrees."""
    ratios = []
    for edge in edges:
        if edge.left_stop in at and edge.right_stop in at and edge.length:
            far = distance_km(at[edge.left_stop], at[edge.right_stop])
            ratios.append((far / (edge.length / MILLION), far, edge))
    if ratios:
        ratio, far, edge = sorted(ratios)[len(ratios) // 2]
        if ratio > TOO_FAR:
            length = edge.length / MILLION
            says = f"edge {edge.edge_id} of length {length:g} would have stops {far:.0f} km apart"
            raise Refused(f"the coordinates are no degrees: {says}; {remedy}")


def put(stops: Sequence[Stop], place: tuple[float, float], scale: float) -> dict[int, Place]:
    """Puts plane coordinates on the earth: the origin at a place, a unit as so many metres. Stops
    whose coordinates say nothing, since some are no numbers or all are alike, are put on a circle
    in their order, each as many metres from the next."""
    plane = [(number_of(it.x_coordinate), number_of(it.y_coordinate)) for it in stops]
    points = [(x, y) for x, y in plane if x is not None and y is not None]
    if len(points) < len(stops) or len(set(points)) == 1 < len(stops):
        points = _circle(len(stops))
    found = {}
    for stop, (x, y) in zip(stops, points):
        north = place[0] + y * scale / 1000 / KM_PER_DEGREE
        east = place[1] + x * scale / 1000 / KM_PER_DEGREE / math.cos(math.radians(place[0]))
        if not (abs(north) <= 90 and abs(east) <= 180):
            raise Refused(f"stop {stop.stop_id}: --place and --scale put it out of all degrees")
        found[stop.stop_id] = Place(f"{north:.6f}", f"{east:.6f}")
    return found


def _circle(count: int) -> list[tuple[float, float]]:
    """So many points on a circle, each one unit from the next."""
    radius = 0.5 / math.sin(math.pi / count) if count > 1 else 0.0
    turns = [2 * math.pi * at / count for at in range(count)]
    return [(radius * math.cos(turn), radius * math.sin(turn)) for turn in turns]
