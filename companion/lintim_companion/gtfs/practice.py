"""Advice beyond the rules of the GTFS Schedule reference: what its best practices say
(https://gtfs.org/documentation/schedule/schedule-best-practices/) and what seldom is meant: names
that are too long or come twice, colours that cannot be read, what nothing uses, and trips that are
faster than their kind of vehicle."""

from collections.abc import Iterable
from itertools import pairwise
from typing import TYPE_CHECKING, Any

from ..line_names import COLOUR, basic_type, contrast
from .cells import degrees_of, whole_of
from .places import distance_km

if TYPE_CHECKING:
    from .check import Checker

Cells = dict[str, str]
Point = tuple[float, float]
LONGEST_NAME = 12
LEAST_CONTRAST = 4.5  # WCAG 2.1, 1.4.3
FAR_KM = 1.0  # from a platform to its station
# Kilometres an hour that no vehicle of a basic type of routes exceeds.
FASTEST = {0: 120, 1: 150, 2: 500, 3: 150, 4: 100, 5: 50, 6: 60, 7: 60, 11: 150, 12: 150}
ROUNDED = 60  # seconds by which times of whole minutes may be off


class Practice:
    """What is kept of the rows of a feed to see advice."""

    def __init__(self, checker: "Checker") -> None:
        self.checker = checker
        self.names: dict[tuple[str, ...], int] = {}
        self.at: dict[str, Point] = {}
        self.kinds: dict[str, int] = {}
        self.route_of: dict[str, str] = {}
        self.parents: list[tuple[int, str, str]] = []
        self.plain_stops: dict[str, int] = {}
        self.shapes: dict[str, int] = {}
        self.used_shapes: set[str] = set()
        self.apart: dict[tuple[str, str], float] = {}

    def see_row(self, file: str, row: int, cells: Cells) -> None:
        """Looks at a row, and keeps what advice on the whole needs."""
        see = getattr(self, f"_see_{file.removesuffix('.txt')}", None)
        if see is not None:
            see(row, cells)

    def _warn(self, file: str, row: int, says: str, rule: str = "") -> None:
        self.checker.warn(f"{file}.txt", row, says, rule)

    def _see_stops(self, row: int, cells: Cells) -> None:
        stop = cells.get("stop_id", "")
        north = degrees_of(cells.get("stop_lat", ""), 90)
        east = degrees_of(cells.get("stop_lon", ""), 180)
        if north is not None and east is not None:
            self.at[stop] = north, east
        if cells.get("location_type", "") in ("", "0"):
            self.plain_stops[stop] = row
        if parent := cells.get("parent_station"):
            self.parents.append((row, stop, parent))

    def _see_routes(self, row: int, cells: Cells) -> None:
        short, long = (cells.get(f"route_{name}_name", "") for name in ("short", "long"))
        if len(short) > LONGEST_NAME:
            says = f"route_short_name has more than {LONGEST_NAME} letters"
            self._warn("routes", row, says)
        if short and short == long:
            self._warn("routes", row, "route_long_name is the same as route_short_name")
        key = cells.get("agency_id", ""), short, long, cells.get("route_type", "")
        if self.names.setdefault(key, row) != row:
            says = f"the same names as in row {self.names[key]}"
            self._warn("routes", row, says, "a route with the names of another one")
        colours = cells.get("route_color") or "FFFFFF", cells.get("route_text_color") or "000000"
        if cells.get("route_color") and all(COLOUR.fullmatch(it) for it in colours):
            if contrast(*colours) < LEAST_CONTRAST:
                self._warn("routes", row, "route_text_color can hardly be read on route_color")
        kind = whole_of(cells.get("route_type", ""))
        self.kinds[cells.get("route_id", "")] = basic_type(3 if kind is None else kind)

    def _see_trips(self, row: int, cells: Cells) -> None:
        self.used_shapes.add(cells.get("shape_id", ""))
        self.route_of[cells.get("trip_id", "")] = cells.get("route_id", "")

    def _see_shapes(self, row: int, cells: Cells) -> None:
        self.shapes.setdefault(cells.get("shape_id", ""), row)

    def see_whole(self, calls: dict[str, list[Any]]) -> None:
        """Advice for which all rows have to be there; the calls of each trip in their order."""
        feed = self.checker.feed
        if "feed_info.txt" not in feed:
            self._warn("feed_info", 0, "it is missing; it says who made the feed, and for when")
        for shape, row in self.shapes.items():
            if shape not in self.used_shapes:
                self._warn("shapes", row, f"no trip has shape {shape!r}", "an unused shape")
        for row, stop, parent in self.parents:
            if stop in self.at and parent in self.at:
                if distance_km(self.at[stop], self.at[parent]) > FAR_KM:
                    says = f"it lies more than {FAR_KM:g} km from its station"
                    self._warn("stops", row, says)
        used = set[str]()
        for trip, of_trip in calls.items():
            used.update(call.stop for call in of_trip)
            self._see_speed(trip, of_trip)
        if calls and not any(name in feed for name in ("location_group_stops.txt",)):
            for stop, row in self.plain_stops.items():
                if stop not in used:
                    self._warn("stops", row, f"no trip calls at {stop!r}", "an unused stop")

    def _see_speed(self, trip: str, calls: Iterable[Any]) -> None:
        """The first drive of a trip that is too fast."""
        most = FASTEST.get(self.kinds.get(self.route_of.get(trip, ""), 3), 500)
        timed = [it for it in calls if it.arrival is not None and it.departure is not None]
        for a, b in pairwise(timed):
            km, hours = self._km(a.stop, b.stop), (b.arrival - a.departure + ROUNDED) / 3600
            if hours > 0 and km > most * hours:
                says = f"{km:.1f} km in {b.arrival - a.departure} s"
                self._warn("stop_times", b.row, says, f"faster than {most} km/h")
                return

    def _km(self, a: str, b: str) -> float:
        if (a, b) not in self.apart:
            there = a in self.at and b in self.at
            self.apart[a, b] = distance_km(self.at[a], self.at[b]) if there else 0.0
        return self.apart[a, b]
