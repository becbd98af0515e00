"""Lines of a feed: the ways of each route, cut where an edge would come twice."""

from collections import Counter
from collections.abc import Iterable, Iterator
from dataclasses import dataclass, field
from typing import NamedTuple

from .rides import Call, Ride, Route
from .stations import Stations
from .ways import Way, matched_ways
from .words import Box


class Part(NamedTuple):
    """The part of a trip that is taken."""

    ride: Ride
    calls: tuple[Call, ...]

    @property
    def start(self) -> int:
        """The minute of the day at which it starts."""
        return self.calls[0].departure

    @property
    def way(self) -> Way:
        """Its stations."""
        return tuple(call.station for call in self.calls)


class Run(NamedTuple):
    """A drive over a line: its start, the minutes after that of each arrival and departure in
    turn, and the trip of the feed."""

    start: int
    offsets: tuple[int, ...]
    trip: str


@dataclass
class Line:
    """A line: its route, its stations, and its runs in the two directions."""

    route: str
    way: Way
    forward: list[Run] = field(default_factory=list)
    backward: list[Run] = field(default_factory=list)
    is_stretched: bool = False  # whether a drive of less than a minute takes one

    @property
    def edges(self) -> list[tuple[int, int]]:
        """The two stations of each of its edges, the lesser one first."""
        return edges_of(self.way)

    def turn(self) -> None:
        """Makes the other direction the first one."""
        self.way = self.way[::-1]
        self.forward, self.backward = self.backward, self.forward


def edges_of(way: Way) -> list[tuple[int, int]]:
    """The edges of a way, by their two stations, the lesser one first."""
    return [(min(two), max(two)) for two in zip(way, way[1:])]


def parts_of(
    rides: Iterable[Ride],
    stations: Stations,
    window: tuple[int, int],
    area: Box | None,
    left: Counter[str],
) -> list[Part]:
    """The parts of trips in an area that start within a window of minutes."""
    inside = [area is None or it.at is not None and area.has(*it.at) for it in stations.all]
    found = []
    for ride in rides:
        calls = ride.calls if area is None else _longest(ride.calls, inside)
        if len(calls) < 2:
            is_cut = len(ride.calls) > 1
            left["trips out of the area" if is_cut else "trips with one station"] += 1
        elif not window[0] <= calls[0].departure <= window[1]:
            left["trips that start out of the window"] += 1
        else:
            left["calls out of the area"] += len(ride.calls) - len(calls)
            found.append(Part(ride, calls))
    return found


def _longest(calls: tuple[Call, ...], inside: list[bool]) -> tuple[Call, ...]:
    """The longest row of calls inside of an area, the first one of several."""
    best: list[Call] = []
    now: list[Call] = []
    for call in calls:
        now = now + [call] if inside[call.station] else []
        if len(now) > len(best):
            best = now
    return tuple(best)


def lines_of(
    parts: list[Part], routes: dict[str, Route], left: Counter[str], share: float
) -> tuple[list[Line], list[Part]]:
    """The lines of all routes, in the order of the feed, and the trips with the calls of them that
    are taken. A way with at least this share of the trips of its route is a line."""
    by_route: dict[str, list[Part]] = {}
    for part in parts:
        by_route.setdefault(part.ride.route, []).append(part)
    found: list[Line] = []
    taken: list[Part] = []
    for route in sorted(by_route, key=lambda it: routes[it].place):
        lines, of_route = _lines_of_route(route, by_route[route], left, share)
        found += lines
        taken += of_route
    return found, taken


def _lines_of_route(
    route: str, parts: list[Part], left: Counter[str], share: float
) -> tuple[list[Line], list[Part]]:
    """The lines of a route: its ways, each of which is several where an edge would come twice."""
    lines: dict[Way, Line] = {}
    taken: list[Part] = []
    by_way: dict[Way, list[Part]] = {}
    for part in parts:
        by_way.setdefault(part.way, []).append(part)
    for it in matched_ways(Counter({way: len(of) for way, of in by_way.items()}), share):
        of_line = [part for way in it.places for part in by_way.pop(way)]
        of_line.sort(key=lambda part: part.ride.place)
        first = _first_way(of_line)
        row = it.row if first == it.there else it.row[::-1]
        cuts = _cuts(row)
        for part in of_line:
            is_first = part.way == first
            calls = tuple(part.calls[at] for at in it.places[part.way])
            left["calls at stops that one direction alone passes"] += len(part.calls) - len(calls)
            taken.append(Part(part.ride, calls))
            last = len(row) - 1
            at = cuts if is_first else [last - cut for cut in reversed(cuts)]
            for begin, end in zip(at, at[1:]):
                _add(lines, route, calls[begin : end + 1], part.ride, is_first)
    for others in by_way.values():
        left[f"trips by ways with less than {100 * share:g} % of their route"] += len(others)
        taken += others
    return list(lines.values()), taken


def _first_way(parts: list[Part]) -> Way:
    """The way of the first direction: that of `direction_id` 0, else that of the first trip."""
    return next((part.way for part in parts if part.ride.direction == "0"), parts[0].way)


def _cuts(way: Way) -> list[int]:
    """The places where a way is cut, with both of its ends, so that no part has an edge twice."""
    cuts, seen = [0], set[tuple[int, int]]()
    for place, edge in enumerate(edges_of(way)):
        if edge in seen:
            cuts.append(place)
            seen = set()
        seen.add(edge)
    return [*cuts, len(way) - 1]


def _add(
    lines: dict[Way, Line], route: str, piece: tuple[Call, ...], ride: Ride, is_first: bool
) -> None:
    """Adds a run to the line of its way, which is made where it is not there."""
    way = tuple(call.station for call in piece)
    start = piece[0].departure
    offsets = [it - start for call in piece for it in (call.arrival, call.departure)][2:-1]
    run = Run(start, tuple(offsets), ride.trip)
    if way not in lines and way[::-1] not in lines:
        first = way if is_first else way[::-1]
        lines[first] = Line(route, first)
    line = lines[way] if way in lines else lines[way[::-1]]
    (line.forward if way in lines else line.backward).append(run)
    line.is_stretched |= ride.is_stretched


def pairs_of(parts: Iterable[Part]) -> Iterator[tuple[Part, Call, Call]]:
    """Each drive from a station to the next one."""
    for part in parts:
        for a, b in zip(part.calls, part.calls[1:]):
            yield part, a, b
