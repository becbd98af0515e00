"""Journeys over a feed alone: a connection scan (J. Dibbelt, T. Pajor, B. Strasser and D. Wagner,
2018) over `stop_times.txt` with the rules of `transfers.txt`. It shares nothing with the package:
it reads the zip file by itself, and knows no dataset."""

import csv
import io
import zipfile
from collections import defaultdict
from pathlib import Path
from typing import NamedTuple

NEVER = 10**9
Stops = tuple[str, str]


class Connection(NamedTuple):
    """A drive of a trip from a stop to the next one, in minutes."""

    departure: int
    arrival: int
    start: str
    end: str
    trip: str


class Timetable:
    """The connections of a feed and its transfers."""

    def __init__(self, path: Path) -> None:
        with zipfile.ZipFile(path) as archive:
            self.files = {
                name: list(csv.DictReader(io.StringIO(archive.read(name).decode("utf-8-sig"))))
                for name in archive.namelist()
            }
        self.route = {row["trip_id"]: row["route_id"] for row in self.files["trips.txt"]}
        parents = {row["stop_id"]: row["parent_station"] for row in self.files["stops.txt"]}
        self.station = {stop: parent or stop for stop, parent in parents.items()}
        self.stops = list(dict.fromkeys(self.station.values()))
        self.connections = sorted(self._connections())
        self.at_stop: dict[Stops, tuple[str, int]] = {}
        self.of_routes: dict[tuple[Stops, str, str], tuple[str, int]] = {}
        self.of_trips: dict[tuple[Stops, str, str], tuple[str, int]] = {}
        for row in self.files["transfers.txt"]:
            stops = row["from_stop_id"], row["to_stop_id"]
            rule = row["transfer_type"], int(row["min_transfer_time"] or 0) // 60
            if not stops[0]:
                continue  # nobody stays in a vehicle from one trip to the next
            if row["from_trip_id"]:
                self.of_trips[stops, row["from_trip_id"], row["to_trip_id"]] = rule
            elif row["from_route_id"]:
                self.of_routes[stops, row["from_route_id"], row["to_route_id"]] = rule
            else:
                self.at_stop[stops] = rule

    def _connections(self) -> list[Connection]:
        calls = defaultdict(list)
        for row in self.files["stop_times.txt"]:
            times = minute(row["arrival_time"]), minute(row["departure_time"])
            calls[row["trip_id"]].append((int(row["stop_sequence"]), row["stop_id"], *times))
        found = []
        for trip, of_trip in calls.items():
            of_trip.sort()
            for (_, start, _, departure), (_, end, arrival, _) in zip(of_trip, of_trip[1:]):
                found.append(Connection(departure, arrival, start, end, trip))
        return found

    def can_change(self, stops: Stops, before: str, after: str, minutes: int) -> bool:
        """Whether a customer gets from a trip at a stop to another trip at another or the same stop
        in so many minutes, by the most special rule that there is for it."""
        of_stop = self.at_stop.get(stops, ("0", 0))
        of_routes = self.of_routes.get((stops, self.route[before], self.route[after]), of_stop)
        kind, least = self.of_trips.get((stops, before, after), of_routes)
        return kind != "3" and minutes >= least

    def earliest(self, start: str, end: str, begin: int) -> int | None:
        """The minute at which a customer is at a stop who starts at another at a minute or
        later; both are stations, or stops of none."""
        arrivals: dict[str, dict[Stops, int]] = defaultdict(dict)  # by station; stop and trip
        on_board: set[str] = set()
        best = NEVER
        for departure, arrival, here, there, trip in self.connections:
            if departure < begin:
                continue
            if departure >= best:
                break
            if trip not in on_board and self.station[here] != start:
                if not any(
                    self.can_change((stop, here), before, trip, departure - at)
                    for (stop, before), at in arrivals[self.station[here]].items()
                ):
                    continue
            on_board.add(trip)
            at = arrivals[self.station[there]]
            at[there, trip] = min(arrival, at.get((there, trip), NEVER))
            if self.station[there] == end:
                best = min(best, arrival)
        return None if best == NEVER else best


def minute(text: str) -> int:
    """A time HH:MM:SS as a minute."""
    hours, minutes, _ = map(int, text.split(":"))
    return hours * 60 + minutes
