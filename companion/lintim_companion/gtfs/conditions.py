"""Rules of the GTFS Schedule reference that more than one cell has to keep: fields that are needed
under a condition, rows that belong together, and advice."""

from typing import TYPE_CHECKING, NamedTuple

from .cells import BASIC_ROUTE_TYPES, date_of, number_of, seconds_of, whole_of

if TYPE_CHECKING:
    from .check import Checker

Cells = dict[str, str]


class _Call(NamedTuple):
    """A row of `stop_times.txt`: its order, its line, its times in seconds, where they are told."""

    order: int
    row: int
    arrival: int | None
    departure: int | None
    distance: float | None
    stop: str
    has_window: bool


class _Stop(NamedTuple):
    row: int
    kind: int
    parent: str


class Conditions:
    """What is kept of the rows of a feed to see rules that need several of them."""

    def __init__(self, checker: "Checker") -> None:
        self.checker = checker
        self.agencies: list[tuple[int, str, str]] = []
        self.stops: dict[str, _Stop] = {}
        self.trips: dict[str, tuple[int, str, str, str]] = {}
        self.calls: dict[str, list[_Call]] = {}
        self.points: dict[str, list[tuple[int, int, float | None]]] = {}
        self.repeated: dict[str, list[tuple[int, int, int]]] = {}
        self.infos = 0

    def see_row(self, file: str, row: int, cells: Cells) -> None:
        """Looks at a row, and keeps what the rules for the whole need."""
        see = getattr(self, f"_see_{file.removesuffix('.txt')}", None)
        if see is not None:
            see(row, cells)

    def _error(self, file: str, row: int, says: str, rule: str = "") -> None:
        self.checker.error(f"{file}.txt", row, says, rule)

    def _warn(self, file: str, row: int, says: str, rule: str = "") -> None:
        self.checker.warn(f"{file}.txt", row, says, rule)

    def _see_agency(self, row: int, cells: Cells) -> None:
        self.agencies.append((row, cells.get("agency_id", ""), cells.get("agency_timezone", "")))

    def _see_stops(self, row: int, cells: Cells) -> None:
        kind = whole_of(cells.get("location_type", "")) or 0
        parent = cells.get("parent_station", "")
        self.stops[cells.get("stop_id", "")] = _Stop(row, kind, parent)
        if kind in (0, 1, 2):
            for name in ("stop_name", "stop_lat", "stop_lon"):
                if not cells.get(name):
                    self._error("stops", row, f"{name} is empty", f"{name} is empty")
        if kind in (2, 3, 4) and not parent:
            self._error("stops", row, f"parent_station is empty at location_type {kind}")
        if kind == 1 and parent:
            self._error("stops", row, "a station has a parent_station")
        if cells.get("stop_access") and (kind != 0 or not parent):
            self._error("stops", row, "stop_access of what is no platform of a station")
        at = [number_of(cells.get(name, "")) for name in ("stop_lat", "stop_lon")]
        if None not in at and all(abs(it or 0) < 0.01 for it in at):
            self._warn("stops", row, "it lies at 0, 0 in the sea")

    def _see_routes(self, row: int, cells: Cells) -> None:
        if not cells.get("route_short_name") and not cells.get("route_long_name"):
            self._error("routes", row, "neither route_short_name nor route_long_name")
        if len(self.agencies) > 1 and not cells.get("agency_id"):
            self._error("routes", row, "agency_id is empty, and there are several agencies")
        kind = whole_of(cells.get("route_type", ""))
        if kind is not None and kind not in BASIC_ROUTE_TYPES:
            rule = "an extended type of routes, which the reference has not"
            self._warn("routes", row, f"route_type {kind}: {rule}", rule)

    def _see_calendar(self, row: int, cells: Cells) -> None:
        self._see_span("calendar", row, cells, "start_date", "end_date")

    def _see_feed_info(self, row: int, cells: Cells) -> None:
        self.infos += 1
        if self.infos == 2:
            self._error("feed_info", row, "a second row")
        self._see_span("feed_info", row, cells, "feed_start_date", "feed_end_date")

    def _see_span(self, file: str, row: int, cells: Cells, first: str, last: str) -> None:
        begin, end = (date_of(cells.get(name, "")) for name in (first, last))
        if begin and end and end < begin:
            self._error(file, row, f"{last} is before {first}")

    def _see_trips(self, row: int, cells: Cells) -> None:
        block, service = cells.get("block_id", ""), cells.get("service_id", "")
        trip, route = cells.get("trip_id", ""), cells.get("route_id", "")
        self.trips[trip] = (row, block, service, route)

    def _see_shapes(self, row: int, cells: Cells) -> None:
        order = whole_of(cells.get("shape_pt_sequence", ""))
        if order is not None:
            distance = number_of(cells.get("shape_dist_traveled", ""))
            self.points.setdefault(cells.get("shape_id", ""), []).append((order, row, distance))

    def _see_stop_times(self, row: int, cells: Cells) -> None:
        order = whole_of(cells.get("stop_sequence", ""))
        stop = cells.get("stop_id", "")
        has_window = self._see_window(row, cells)
        there = self.stops.get(stop)
        if there is not None and there.kind != 0:
            self._error("stop_times", row, f"stop {stop!r} is no place where vehicles stop")
        times = [seconds_of(cells.get(f"{name}_time", "")) for name in ("arrival", "departure")]
        if cells.get("timepoint") == "1" and None in times:
            self._error("stop_times", row, "timepoint is 1, and a time is empty")
        if order is not None:
            walked = number_of(cells.get("shape_dist_traveled", ""))
            call = _Call(order, row, times[0], times[1], walked, stop, has_window)
            self.calls.setdefault(cells.get("trip_id", ""), []).append(call)

    def _see_window(self, row: int, cells: Cells) -> bool:
        """Sees where and when a vehicle comes on demand; whether it does so."""
        places = [it for it in ("stop_id", "location_id", "location_group_id") if cells.get(it)]
        if not places:
            self._error("stop_times", row, "stop_id is empty", "stop_id is empty")
        if len(places) > 1:
            self._error("stop_times", row, f"both {places[0]} and {places[1]}")
        ends = [cells.get(f"{end}_pickup_drop_off_window", "") for end in ("start", "end")]
        if not any(ends):
            if places and places[0] != "stop_id":
                self._error("stop_times", row, "an area or a group of stops without a window")
            return False
        begin, end = map(seconds_of, ends)
        if not all(ends):
            self._error("stop_times", row, "a window with one end")
        elif begin is not None and end is not None and end <= begin:
            self._error("stop_times", row, "a window ends before it begins")
        if cells.get("arrival_time") or cells.get("departure_time"):
            self._error("stop_times", row, "a time and a window")
        for name, kinds in (("pickup", ("", "0", "3")), ("drop_off", ("", "0"))):
            if cells.get(f"{name}_type", "") in kinds:
                self._error("stop_times", row, f"{name}_type is that of a regular call in a window")
        return True

    def _see_pathways(self, row: int, cells: Cells) -> None:
        if cells.get("pathway_mode") == "7" and cells.get("is_bidirectional") == "1":
            self._error("pathways", row, "an exit gate that leads both ways")

    def _see_frequencies(self, row: int, cells: Cells) -> None:
        begin, end = (seconds_of(cells.get(name, "")) for name in ("start_time", "end_time"))
        if begin is not None and end is not None:
            if end <= begin:
                self._error("frequencies", row, "end_time is not after start_time")
            self.repeated.setdefault(cells.get("trip_id", ""), []).append((begin, end, row))

    def _see_transfers(self, row: int, cells: Cells) -> None:
        kind = cells.get("transfer_type", "") or "0"
        for end in ("from", "to"):
            trip, route = cells.get(f"{end}_trip_id", ""), cells.get(f"{end}_route_id", "")
            if route and trip in self.trips and self.trips[trip][3] != route:
                self._error("transfers", row, f"{end}_trip_id is no trip of {end}_route_id")
        of_trips = kind in ("4", "5")
        for end in ("from", "to"):
            if of_trips and not cells.get(f"{end}_trip_id"):
                self._error("transfers", row, f"{end}_trip_id is empty at transfer_type {kind}")
            if not of_trips and not cells.get(f"{end}_stop_id"):
                self._error("transfers", row, f"{end}_stop_id is empty")
            there = self.stops.get(cells.get(f"{end}_stop_id", ""))
            if there is not None and there.kind > 1:
                self._error("transfers", row, f"{end}_stop_id is neither a stop nor a station")
        if kind == "2" and not cells.get("min_transfer_time"):
            self._warn("transfers", row, "transfer_type 2 without min_transfer_time")

    def _see_attributions(self, row: int, cells: Cells) -> None:
        roles = [cells.get(f"is_{role}") for role in ("producer", "operator", "authority")]
        if "1" not in roles:
            self._error("attributions", row, "it is neither producer, operator nor authority")

    def _see_fare_attributes(self, row: int, cells: Cells) -> None:
        if len(self.agencies) > 1 and not cells.get("agency_id"):
            self._error(
                "fare_attributes", row, "agency_id is empty, and there are several agencies"
            )

    def see_whole(self) -> None:
        """The rules for which all rows have to be there."""
        if "translations.txt" in self.checker.feed and not self.infos:
            self._error("feed_info", 0, "it is missing or empty, and translations.txt is there")
        self._whole_agencies()
        self._whole_stops()
        for trip, calls in self.calls.items():
            self._whole_trip(trip, sorted(calls))
        if "stop_times.txt" in self.checker.feed:
            for trip, (row, *_) in self.trips.items():
                if trip not in self.calls:
                    self._warn("trips", row, f"trip {trip!r} calls nowhere", "trip without calls")
        for shape, points in self.points.items():
            self._whole_shape(shape, sorted(points, key=lambda it: it[:2]))
        for spans in self.repeated.values():
            spans.sort()
            for (_, end, _), (begin, _, row) in zip(spans, spans[1:]):
                if begin < end:
                    self._error("frequencies", row, "it overlaps another row of its trip")
        self._whole_blocks()

    def _whole_agencies(self) -> None:
        if len(self.agencies) > 1:
            for row, agency, zone in self.agencies:
                if not agency:
                    self._error("agency", row, "agency_id is empty, and there are several")
                if zone != self.agencies[0][2]:
                    self._error("agency", row, "agency_timezone is not that of the first agency")

    def _whole_stops(self) -> None:
        for stop, (row, kind, parent) in self.stops.items():
            if not parent:
                continue
            there = self.stops.get(parent)
            if there is None:
                says = f"parent_station {parent!r} is not in stops.txt"
                self._error("stops", row, says, "parent_station is not in stops.txt")
            elif kind != 1 and there.kind != (0 if kind == 4 else 1):
                says = f"parent_station {parent!r} of {stop!r} is of location_type {there.kind}"
                self._error("stops", row, says, "parent_station of another kind")

    def _whole_trip(self, trip: str, calls: list[_Call]) -> None:
        """The calls of a trip: two of them, times at both ends, and nothing goes back."""
        if len(calls) < 2:
            self._warn("stop_times", calls[0].row, f"trip {trip!r} calls once", "a single call")
        for call in (calls[0], calls[-1]):
            if not call.has_window and None in (call.arrival, call.departure):
                self._error("stop_times", call.row, "a time is empty at an end of the trip")
        now, walked = -1, -1.0
        for call in calls:
            for name, time in (("arrival", call.arrival), ("departure", call.departure)):
                if time is not None and time < now:
                    says = f"{name}_time is before the time before it"
                    self._error("stop_times", call.row, says)
                now = max(now, time if time is not None else now)
            if call.distance is not None:
                if call.distance < walked or call.distance == walked != 0:
                    self._error("stop_times", call.row, "shape_dist_traveled does not rise")
                walked = max(walked, call.distance)

    def _whole_shape(self, shape: str, points: list[tuple[int, int, float | None]]) -> None:
        if len(points) < 2:
            says = f"shape {shape!r} has one point"
            self._error("shapes", points[0][1], says, "a shape of one point")
        walked = -1.0
        for _, row, distance in points:
            if distance is not None:
                if distance < walked:
                    self._error("shapes", row, "shape_dist_traveled falls")
                walked = max(walked, distance)

    def _whole_blocks(self) -> None:
        """No two trips of a block and a service at one time."""
        blocks: dict[tuple[str, str], list[tuple[int, int, int]]] = {}
        for trip, (row, block, service, _) in self.trips.items():
            calls = sorted(self.calls.get(trip, ()))
            times = [it for call in calls for it in call[2:4] if it is not None]
            if block and times and trip not in self.repeated:
                blocks.setdefault((block, service), []).append((min(times), max(times), row))
        for (block, _), spans in blocks.items():
            spans.sort()
            for (_, end, _), (begin, _, row) in zip(spans, spans[1:]):
                if begin < end:
                    says = f"block {block!r} has another trip at that time"
                    self._error("trips", row, says, "two trips of a block at one time")
