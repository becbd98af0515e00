"""Agencies and routes of an exported feed, by what lines are called."""

from collections.abc import Iterable
from typing import Any

from ..line_names import LineNames, text_colour, type_of_mode
from .day import Day, DayTrip

PUBLISHER = "lintim"
BUS = 3
Rows = Iterable[tuple[Any, ...]]


class Agencies:
    """The agencies of the table of names, with the first time zone that it tells; one where there
    is no table, or for lines without a row in it."""

    def __init__(self, names: LineNames) -> None:
        self.names = names
        zones = [it.time_zone.strip() for it in names.rows.values() if it.time_zone.strip()]
        self.zone = zones[0] if zones else "UTC"
        told = (_one_line(it.agency) or PUBLISHER for it in names.rows.values())
        self.ids = {name: at for at, name in enumerate(dict.fromkeys(told), 1)} or {PUBLISHER: 1}

    def of(self, line: int) -> int:
        """The id of the agency of a line."""
        row = self.names.rows.get(line)
        name = row and _one_line(row.agency) or PUBLISHER
        return self.ids.setdefault(name, len(self.ids) + 1)

    def rows(self) -> Rows:
        """The rows of `agency.txt`."""
        yield "agency_id", "agency_name", "agency_url", "agency_timezone"
        for name, id in self.ids.items():
            yield id, name, "http://example.org", self.zone


def _one_line(text: str) -> str:
    """A text without tabs and without blanks at its ends."""
    return " ".join(text.split())


def routes_of(day: Day, names: dict[int, str], agencies: Agencies, kind: int | None) -> Rows:
    """A route for each line; colours stand there where the table of names has some."""
    fields = "route_id agency_id route_short_name route_long_name route_type"
    of = agencies.names
    has_colours = any(it.colour for it in of.rows.values())
    yield *fields.split(), *(("route_color", "route_text_color") if has_colours else ())
    first: dict[int, DayTrip] = {}
    for trip in day.trips:
        first.setdefault(trip.line, trip)
    for line, trip in sorted(first.items()):
        ends = [names[trip.calls[at].stop] for at in (0, -1)]
        row = of.rows.get(line)
        long = _one_line(row.long_name) if row else ""
        long = long or " - ".join(ends if trip.is_forward else ends[::-1])
        told = kind if kind is not None else type_of_mode(row.mode) if row else BUS
        colour = (row.colour, text_colour(row.colour)) if row and row.colour else ("", "")
        yield line, agencies.of(line), of.short(line), long, told, *colour[: 2 * has_colours]
