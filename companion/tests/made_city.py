"""A feed in the making, row by row, and its zip file."""

import csv
import io
import zipfile
from collections.abc import Iterable, Sequence
from pathlib import Path
from typing import Any

Files = dict[str, bytes]
Row = dict[str, Any]
ON = "20260105"  # a Monday
DAYS = "monday tuesday wednesday thursday friday saturday sunday".split()
HOUR = 3600


def clock(seconds: int) -> str:
    """Seconds of the day as HH:MM:SS, above 24 hours after midnight."""
    return f"{seconds // 3600:02}:{seconds // 60 % 60:02}:{seconds % 60:02}"


class City:
    """A feed in the making: rows of its files."""

    def __init__(self) -> None:
        self.rows: dict[str, list[Row]] = {
            "agency.txt": [
                {
                    "agency_id": "A",
                    "agency_name": "City",
                    "agency_url": "https://city.example",
                    "agency_timezone": "Europe/Berlin",
                }
            ]
        }

    def add(self, file: str, **cells: Any) -> None:
        """A row more."""
        self.rows.setdefault(f"{file}.txt", []).append(cells)

    def stop(self, stop: str, east: float, north: float, name: str = "", **more: Any) -> None:
        """A stop so many kilometres from the middle of the city."""
        place = {"stop_lat": f"{50 + north / 111.2:.6f}", "stop_lon": f"{8 + east / 71.5:.6f}"}
        self.add("stops", stop_id=stop, stop_name=name or f"Stop {stop}", **place, **more)

    def route(self, route: str, kind: int = 3) -> None:
        """A route."""
        self.add("routes", route_id=route, agency_id="A", route_short_name=route, route_type=kind)

    def weekly(self, service: str, days: str = "1111100", **more: str) -> None:
        """A service on some days of the week."""
        span = {"start_date": "20251201", "end_date": "20261231", **more}
        self.add("calendar", service_id=service, **dict(zip(DAYS, days)), **span)

    def trip(
        self,
        trip: str,
        route: str,
        way: Sequence[str],
        start: int,
        drive: int | Sequence[int] = 180,
        stand: int = 60,
        service: str = "week",
        **more: Any,
    ) -> None:
        """A trip along a way, from a second of the day on."""
        self.add("trips", route_id=route, service_id=service, trip_id=trip, **more)
        now = start
        for place, stop in enumerate(way):
            if place:
                now += drive if isinstance(drive, int) else drive[place - 1]
            leave = now + stand if 0 < place < len(way) - 1 else now
            times = {"arrival_time": clock(now), "departure_time": clock(leave)}
            self.add("stop_times", trip_id=trip, **times, stop_id=stop, stop_sequence=place + 1)
            now = leave

    def both_ways(self, route: str, way: Sequence[str], starts: Iterable[int], **more: Any) -> None:
        """Trips in both directions."""
        for start in starts:
            self.trip(f"{route}-0-{start}", route, way, start, direction_id=0, **more)
            self.trip(f"{route}-1-{start}", route, way[::-1], start + 300, direction_id=1, **more)

    def files(self) -> Files:
        """The bytes of all files."""
        found = {}
        for name, rows in self.rows.items():
            fields = list(dict.fromkeys(field for row in rows for field in row))
            out = io.StringIO()
            table = csv.DictWriter(out, fields, restval="", lineterminator="\r\n")
            table.writeheader()
            table.writerows(rows)
            found[name] = out.getvalue().encode()
        return found


def write(path: Path, files: Files) -> Path:
    """The zip file of some files."""
    with zipfile.ZipFile(path, "w", zipfile.ZIP_DEFLATED) as archive:
        for name, data in files.items():
            archive.writestr(zipfile.ZipInfo(name, (2026, 1, 1, 0, 0, 0)), data)
    return path
