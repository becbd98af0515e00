"""A feed from the day of a dataset. The same dataset gives the same bytes each time."""

import csv
import io
import zipfile
from collections import Counter
from datetime import date
from typing import NamedTuple

from .. import formats
from ..dataset import Dataset
from ..faults import Refused
from ..line_names import LineNames
from ..rows import number_text
from .cells import time_cell
from .day import Day, DayTrip, read_day
from .places import Place
from .routes import PUBLISHER, Agencies, Rows, routes_of

MAX_MINUTE = 999 * 60 + 59  # a time has at most three digits for its hours
FIRST_OF_ALL_ZIP_TIMES = (1980, 1, 1, 0, 0, 0)


class Wanted(NamedTuple):
    """How a feed is wanted: by which times, on which date, and what kind of routes lines are."""

    is_disposed: bool
    on: date
    route_type: int | None  # of all lines; none for what the table of names tells, else a bus
    has_vehicles: bool


class Made(NamedTuple):
    """The files of a feed by their names, and what they have."""

    files: dict[str, bytes]
    stops: int
    routes: int
    trips: int
    calls: int
    changes: int  # changes that are listed one by one, 0 where they are not


def feed_of(data: Dataset, places: dict[int, Place], wanted: Wanted) -> Made:
    """The feed of the day of a dataset."""
    day = read_day(data, wanted.is_disposed, wanted.has_vehicles)
    _see_times(day)
    stops = list(data[formats.STOPS])
    for trip in day.trips:
        for call in trip.calls:
            if call.stop not in places:
                raise Refused(f"{formats.DAY_EVENTS.name}: unknown stop {call.stop}")
    one_by_one = wanted.is_disposed or is_short(data, day)
    naming = Naming(stops, day, one_by_one)
    names = naming.names
    agencies = Agencies(LineNames(data))
    routes = list(
        routes_of(day, names, agencies, wanted.route_type)
    )  # before the agencies are told
    tables = {
        "agency.txt": agencies.rows(),
        "stops.txt": _stops(stops, naming, places),
        "routes.txt": routes,
        "calendar_dates.txt": _dates(wanted.on),
        "shapes.txt": _shapes(day, places),
        "trips.txt": _trips(day, names),
        "stop_times.txt": _calls(day, naming),
        "transfers.txt": _transfers(data, day, naming, one_by_one),
        "feed_info.txt": _info(wanted),
    }
    return Made(
        {name: _text(rows) for name, rows in tables.items()},
        len(stops),
        len({trip.line for trip in day.trips}),
        len(day.trips),
        sum(len(trip.calls) for trip in day.trips),
        len(day.changes) if one_by_one else 0,
    )


class Naming:
    """The names and the ids of stops. Where changes are listed one by one, a stop at which a trip
    arrives or departs twice is a station, with a platform for each time; else the feed could not
    tell which call of the trip a change means."""

    def __init__(self, stops: list[formats.Stop], day: Day, one_by_one: bool) -> None:
        self.names = {stop.stop_id: _name(stop) for stop in stops}
        self.platforms: dict[int, int] = {}  # how many a station has
        if one_by_one:
            twice = {stop for trip in day.trips for stop in _twice(trip)}
            for trip in day.trips:
                for call in trip.calls:
                    if call.stop in twice:
                        most = max(call.visit, self.platforms.get(call.stop, 1))
                        self.platforms[call.stop] = most

    def id(self, stop: int, visit: int) -> str:
        """The id of the place where a trip calls for this time."""
        return f"{stop}.{visit}" if stop in self.platforms else str(stop)

    def ids(self, stop: int) -> list[str]:
        """The ids of all places of a stop where trips call."""
        return [self.id(stop, visit) for visit in range(1, self.platforms.get(stop, 1) + 1)]


def _twice(trip: DayTrip) -> set[int]:
    """The stops at which a trip arrives twice, or from which it departs twice."""
    stops = [call.stop for call in trip.calls]
    counts = Counter(stops[1:]), Counter(stops[:-1])
    return {stop for count in counts for stop, often in count.items() if often > 1}


def packed(files: dict[str, bytes]) -> bytes:
    """The zip file of some files; it has no time of its making."""
    out = io.BytesIO()
    with zipfile.ZipFile(out, "w", zipfile.ZIP_DEFLATED) as archive:
        for name, data in files.items():
            info = zipfile.ZipInfo(name, FIRST_OF_ALL_ZIP_TIMES)
            info.compress_type = zipfile.ZIP_DEFLATED
            info.external_attr = 0o644 << 16
            archive.writestr(info, data)
    return out.getvalue()


def is_short(data: Dataset, day: Day) -> bool:
    """Whether the day is too short for the rule that any change is possible after its least time.
    A change of `lintim` leads to the next departure of a run alone, and there is none where the
    trip would have started before the day. Where the day is longer than a period and the longest
    trip together, the journey that waits for the departure after that can start a period later
    and arrives at the same time; in a shorter day it may not be there."""
    keys = data.settings
    longest = max(
        (trip.calls[-1].arrival - trip.calls[0].departure for trip in day.trips), default=0
    )
    is_one = len({change.least for change in day.changes}) <= 1
    return not is_one or keys.DM_latest_time - keys.DM_earliest_time < keys.period_length + longest


def _see_times(day: Day) -> None:
    if not day.trips:
        raise Refused("the day has no trips")
    latest = max(trip.calls[-1].arrival for trip in day.trips)
    if latest > MAX_MINUTE:
        raise Refused(f"an event is at minute {latest}; a feed has no time after {MAX_MINUTE}")


def _text(rows: Rows) -> bytes:
    """A table as comma separated values, lines ended as RFC 4180 has it."""
    out = io.StringIO()
    csv.writer(out, lineterminator="\r\n").writerows(rows)
    return out.getvalue().encode()


def _stops(stops: list[formats.Stop], naming: Naming, places: dict[int, Place]) -> Rows:
    fields = "stop_id stop_code stop_name stop_lat stop_lon location_type parent_station"
    yield tuple(fields.split())
    for stop in stops:
        key = stop.stop_id
        says = " ".join(stop.short_name.split()), naming.names[key], *places[key]
        is_station = key in naming.platforms
        yield key, *says, int(is_station), ""
        for platform in naming.ids(key) if is_station else ():
            yield platform, *says, 0, key


def _name(stop: formats.Stop) -> str:
    """The name of a stop, without tabs; its short name or its id where it has none."""
    return " ".join((stop.long_name.strip() or stop.short_name).split()) or str(stop.stop_id)


def _dates(on: date) -> Rows:
    yield "service_id", "date", "exception_type"
    yield "day", f"{on:%Y%m%d}", 1


def _direction(trip: DayTrip) -> int:
    return 0 if trip.is_forward else 1


def _shape(trip: DayTrip) -> str:
    return f"{trip.line}-{_direction(trip)}"


def _shapes(day: Day, places: dict[int, Place]) -> Rows:
    """The ways of the lines over their edges, from stop to stop, in both directions."""
    fields = "id pt_lat pt_lon pt_sequence dist_traveled".split()
    yield tuple(f"shape_{name}" for name in fields)
    ways = {(trip.line, _direction(trip)): trip for trip in reversed(day.trips)}
    for _, trip in sorted(ways.items()):
        for place, call in enumerate(trip.calls):
            yield _shape(trip), *places[call.stop], place, number_text(call.walked)


def _trips(day: Day, names: dict[int, str]) -> Rows:
    fields = "route_id service_id trip_id trip_headsign direction_id block_id shape_id"
    yield tuple(fields.split())
    for trip in day.trips:
        head = names[trip.calls[-1].stop]
        block = trip.vehicle or ""
        yield trip.line, "day", trip.number, head, _direction(trip), block, _shape(trip)


def _calls(day: Day, naming: Naming) -> Rows:
    fields = "trip_id arrival_time departure_time stop_id stop_sequence shape_dist_traveled"
    yield tuple(fields.split())
    for trip in day.trips:
        for place, call in enumerate(trip.calls):
            times = time_cell(call.arrival), time_cell(call.departure)
            at = naming.id(call.stop, call.visit)
            yield trip.number, *times, at, place, number_text(call.walked)


def _transfers(data: Dataset, day: Day, naming: Naming, one_by_one: bool) -> Rows:
    """The changes: at each stop after the least time, and none from a line to itself; or none but
    those that are listed trip by trip. Nobody stays in a vehicle from one trip to the next."""
    ends = "from_stop_id to_stop_id from_route_id to_route_id from_trip_id to_trip_id"
    yield *ends.split(), "transfer_type", "min_transfer_time"
    least = min((it.least for it in day.changes), default=None)
    if least is None:
        least = data.settings.ean_default_minimal_change_time
    kind = (3, "") if one_by_one else (2, 60 * least)
    for stop in sorted({call.stop for trip in day.trips for call in trip.calls}):
        for a in naming.ids(stop):
            for b in naming.ids(stop):
                yield a, b, "", "", "", "", *kind
    if one_by_one:
        yield from _changes(day, naming)
    else:
        for line, stop in sorted({(it.line, at.stop) for it in day.trips for at in it.calls}):
            yield stop, stop, line, line, "", "", 3, ""
    yield from _blocks(day)


def _changes(day: Day, naming: Naming) -> Rows:
    """The changes of the day, from trip to trip; each one once."""
    found: dict[tuple[str, str, int, int], int] = {}
    for it in day.changes:
        stops = naming.id(it.stop, it.before.visit), naming.id(it.stop, it.after.visit)
        key = *stops, it.before.trip, it.after.trip
        found[key] = min(it.least, found.get(key, it.least))
    for (a, b, before, after), least in found.items():
        yield a, b, "", "", before, after, 2, 60 * least


def _blocks(day: Day) -> Rows:
    """No two trips that follow one another in a vehicle are one for a customer."""
    vehicles: dict[int, list[DayTrip]] = {}
    for trip in sorted(day.trips, key=lambda it: it.calls[0].departure):
        if trip.vehicle:
            vehicles.setdefault(trip.vehicle, []).append(trip)
    for _, driven in sorted(vehicles.items()):
        for before, after in zip(driven, driven[1:]):
            yield "", "", "", "", before.number, after.number, 5, ""


def _info(wanted: Wanted) -> Rows:
    fields = "publisher_name publisher_url lang start_date end_date version"
    yield tuple(f"feed_{name}" for name in fields.split())
    on = f"{wanted.on:%Y%m%d}"
    kind = "disposed" if wanted.is_disposed else "planned"
    yield PUBLISHER, "http://example.org", "und", on, on, f"{on} {kind}"
