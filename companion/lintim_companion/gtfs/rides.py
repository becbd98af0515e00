"""The trips of a feed on a date: where each one calls and when, in minutes.

Times are rounded so that trips which take equally long still do: the first departure to the nearest
minute, and each later time to the nearest minute after that departure.
"""

from collections import Counter
from collections.abc import Iterator
from datetime import date
from typing import NamedTuple

from ..faults import Refused
from ..line_names import basic_type
from .cells import fault_of, number_of, seconds_of, whole_of
from .feed import Feed
from .services import Calendar
from .stations import Stations

MAX_RIDES = 200_000
STRETCHED = "drives of less than a minute take one"
LATEST_START = 10_080  # the last minute at which a trip of `lintim` may start


class Call(NamedTuple):
    """A station of a trip: arrival and departure in minutes of the day, and the distances that
    the feed tells of the arrival and the departure."""

    station: int
    arrival: int
    departure: int
    walked_in: float | None
    walked_out: float | None

    def moved(self, minutes: int) -> "Call":
        """The call so many minutes later."""
        times = self.arrival + minutes, self.departure + minutes
        return Call(self.station, *times, self.walked_in, self.walked_out)


class Ride(NamedTuple):
    """A trip of the date."""

    trip: str
    route: str
    direction: str
    shape: str
    calls: tuple[Call, ...]
    place: int = 0  # among all trips that are taken
    is_stretched: bool = False  # whether a drive of less than a minute takes one


class Route(NamedTuple):
    """A route: its basic type and the one that is told, its name, its place in the feed, and what
    it is called: short name, long name, colour, agency and time zone."""

    kind: int
    told: int
    name: str
    place: int
    short: str = ""
    long: str = ""
    colour: str = ""
    agency: str = ""
    zone: str = ""

    def is_of(self, kind: int) -> bool:
        """Whether it is of a type, which may be a basic or an extended one."""
        return kind in (self.kind, self.told)


class _Row(NamedTuple):
    order: int
    stop: str
    arrival: int | None
    departure: int | None
    walked: float | None


class _Fault(Exception):
    """Why a trip cannot be taken."""


class Rides:
    """The trips of a date; `left` counts what could not be taken, and `changed` what was mended."""

    def __init__(self, feed: Feed, stations: Stations, on: date, kind: int | None) -> None:
        self.stations, self.left, self.changed = stations, Counter[str](), Counter[str]()
        self.first_fault, self.kind, self.count = "", kind, 0
        self.routes = _routes(feed)
        self.wanted = self._trips(feed, on)
        self.repeated = _frequencies(feed, self.wanted)
        self.all = list(self._rides(self._rows(feed)))

    def _trips(self, feed: Feed, on: date) -> dict[str, tuple[str, str, str]]:
        """The route, direction and shape of the trips that run on a date."""
        calendar = Calendar(feed)
        services = calendar.on(on)
        found: dict[str, tuple[str, str, str]] = {}
        counts = Counter[str]()
        fields = ("trip_id", "service_id", "route_id", "direction_id", "shape_id")
        for row, (trip, service, *more) in feed.records("trips.txt", *fields):
            counts[service] += 1
            if service not in services:
                self.left["trips of other dates"] += 1
            elif more[0] not in self.routes:
                self._fault(f"trips.txt row {row}: route {more[0]!r} is not in routes.txt")
            elif self.kind is not None and not self.routes[more[0]].is_of(self.kind):
                self.left["trips of other types of routes"] += 1
            else:
                found[trip] = more[0], more[1], more[2]
        if self.left["trips of other types of routes"] and not found:
            kinds = sorted({it.told for it in self.routes.values()})
            said = ", ".join(map(str, kinds))
            raise Refused(f"no trip of --route-type {self.kind}; the feed has the types {said}")
        if not found and not self.first_fault:
            best = calendar.busiest(counts)
            says = f"; most trips, {best[1]}, are on --date {best[0]:%Y%m%d}" if best else ""
            raise Refused(f"no trip runs on {on}{says}")
        return found

    def _fault(self, says: str) -> None:
        self.left["trips with a fault"] += 1
        self.first_fault = self.first_fault or says

    def _rows(self, feed: Feed) -> dict[str, list[_Row]]:
        """The rows of `stop_times.txt` of the trips that are wanted."""
        rows: dict[str, list[_Row]] = {trip: [] for trip in self.wanted}
        names = "trip_id stop_sequence stop_id arrival_time departure_time shape_dist_traveled"
        for row, cells in feed.records("stop_times.txt", *names.split()):
            if cells[0] in rows:
                try:
                    rows[cells[0]].append(self._row(cells))
                except _Fault as why:
                    self._fault(f"stop_times.txt row {row}: {why}")
                    del rows[cells[0]]
        return rows

    def _row(self, cells: list[str]) -> _Row:
        order = whole_of(cells[1])
        if order is None:
            raise _Fault(f"stop_sequence is {cells[1]!r}")
        if cells[2] not in self.stations.of_stop:
            raise _Fault(f"stop {cells[2]!r} is not in stops.txt")
        times = [seconds_of(text) if text else None for text in cells[3:5]]
        for text, time in zip(cells[3:5], times):
            if text and time is None:
                raise _Fault(f"{text!r} is no time")
        arrival = times[0] if times[0] is not None else times[1]
        departure = times[1] if times[1] is not None else times[0]
        return _Row(order, cells[2], arrival, departure, number_of(cells[5]))

    def _rides(self, rows: dict[str, list[_Row]]) -> Iterator[Ride]:
        place = 0
        for trip, of_trip in rows.items():
            if not of_trip:
                self.left["trips that call nowhere"] += 1
                continue
            try:
                before = self.changed[STRETCHED]
                starts, calls = self._calls(trip, sorted(of_trip, key=lambda it: it.order))
                stretched = self.changed[STRETCHED] > before
            except _Fault as why:
                self._fault(f"stop_times.txt: trip {trip!r}: {why}")
                continue
            for start in starts:
                if start > LATEST_START:
                    self.left["trips that start after 168:00"] += 1
                    continue
                moved = tuple(it.moved(start) for it in calls)
                yield Ride(trip, *self.wanted[trip], moved, place, stretched)
                place += 1

    def _calls(self, trip: str, rows: list[_Row]) -> tuple[list[int], list[Call]]:
        """The minutes at which a trip starts, and its calls in minutes after that. Stops of one
        station that follow one another are one call, and each drive takes a minute at least."""
        if any(a.order == b.order for a, b in zip(rows, rows[1:])):
            raise _Fault("a stop_sequence comes twice")
        times = self._filled(rows)
        begin = times[0][1]
        calls: list[Call] = []
        for row, (arrival, departure) in zip(rows, times):
            station = self.stations.of_stop[row.stop]
            here = (arrival - begin + 30) // 60, (departure - begin + 30) // 60
            if calls and calls[-1].station == station:
                calls[-1] = calls[-1]._replace(
                    departure=max(here[1], calls[-1].departure), walked_out=row.walked
                )
                continue
            least = calls[-1].departure + 1 if calls else 0
            if here[0] < least:
                self.changed[STRETCHED] += 1
            at = max(here[0], least) if calls else 0
            calls.append(Call(station, at, max(here[1], at), row.walked, row.walked))
        first = calls[0].departure
        calls = [it.moved(-first) for it in calls]
        spans = self.repeated.get(trip) or [(begin, begin + 1, 1)]
        self.count += sum(len(range(*span)) for span in spans)
        if self.count > MAX_RIDES:
            raise Refused(f"more than {MAX_RIDES} trips; --route-type takes fewer")
        return [(at + 30) // 60 + first for span in spans for at in range(*span)], calls

    def _filled(self, rows: list[_Row]) -> list[tuple[int, int]]:
        """The times of all calls in seconds; those that are not told lie evenly between others."""
        times = [(row.arrival, row.departure) for row in rows]
        if times[0][1] is None or times[-1][0] is None:
            raise _Fault("its first or last time is empty")
        found: list[tuple[int, int]] = []
        for place, (arrival, departure) in enumerate(times):
            if arrival is None or departure is None:
                self.changed["times that the feed does not tell lie evenly"] += 1
                after = next(at for at in range(place, len(times)) if times[at][0] is not None)
                until = times[after][0] or 0
                step = (until - found[-1][1]) / (after - place + 1)
                arrival = departure = found[-1][1] + round(step)
            if found and arrival < found[-1][1] or departure < arrival:
                raise _Fault("its times go back")
            found.append((arrival, departure))
        return found


def _routes(feed: Feed) -> dict[str, Route]:
    """The routes of a feed by their ids."""
    found: dict[str, Route] = {}
    agencies = _agencies(feed)
    first = next(iter(agencies.values()), ("", ""))
    fields = "route_id route_type route_short_name route_long_name route_color agency_id".split()
    for row, (route, text, short, long, colour, of) in feed.records("routes.txt", *fields):
        kind = whole_of(text)
        if kind is None:
            raise Refused(f"routes.txt row {row}: route_type is {text!r}")
        agency, zone = agencies.get(of, first)
        good = colour.upper() if fault_of("color", colour) is None else ""
        name = short or long or route
        told = Route(basic_type(kind), kind, name, len(found), short, long, good, agency, zone)
        found.setdefault(route, told)
    return found


def _agencies(feed: Feed) -> dict[str, tuple[str, str]]:
    """The names of agencies and their time zones, by their ids, in the order of the feed."""
    fields = ("agency_id", "agency_name", "agency_timezone")
    found: dict[str, tuple[str, str]] = {}
    for _, (agency, name, zone) in feed.records("agency.txt", *fields):
        found.setdefault(agency, (name, zone if fault_of("zone", zone) is None else ""))
    return found


def _frequencies(
    feed: Feed, wanted: dict[str, tuple[str, str, str]]
) -> dict[str, list[tuple[int, int, int]]]:
    """The spans of trips that are repeated: first start, end, and seconds between two starts."""
    found: dict[str, list[tuple[int, int, int]]] = {}
    fields = ("trip_id", "start_time", "end_time", "headway_secs")
    for row, (trip, begin, end, headway) in feed.records("frequencies.txt", *fields):
        span = seconds_of(begin), seconds_of(end), whole_of(headway)
        if span[0] is None or span[1] is None or not span[2] or span[1] <= span[0]:
            raise Refused(f"frequencies.txt row {row}: no span of time with a headway")
        if trip in wanted:
            found.setdefault(trip, []).append((span[0], span[1], span[2]))
    return {trip: sorted(spans) for trip, spans in found.items()}
