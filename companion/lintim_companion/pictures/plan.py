"""A plan as pictures need it: stops with names, lines with colours, and trips with their events."""

from collections import Counter
from functools import cached_property
from typing import Any, Generic, NamedTuple, TypeVar

from .scene import named
from ..cells import File
from ..dataset import Dataset
from ..faults import Refused
from ..formats import CONCEPT, DAY_EVENTS, DISPOSITION, EDGES, STOPS, TRIPS, DayEvent, Edge
from ..line_names import LineNames
from . import style

V = TypeVar("V")


class Index(dict[int, V], Generic[V]):
    """The rows of a file by id; an id that another file names has to be there."""

    def __init__(self, what: str, file: File[Any], rows: dict[int, V]) -> None:
        super().__init__(rows)
        self.what, self.file = what, file

    def __missing__(self, id: int) -> V:
        raise Refused(f"{self.file.name} has no {self.what} {id}, which another file names")


class Choice(NamedTuple):
    """What is to be drawn: trips that are under way in some minutes of the day, of some lines, and
    further paths of stops."""

    begin: int | None = None
    end: int | None = None
    lines: frozenset[int] = frozenset()
    paths: tuple[tuple[int, ...], ...] = ()

    def has_line(self, line: int) -> bool:
        """Whether a line is drawn."""
        return not self.lines or line in self.lines

    def has_time(self, begin: int, end: int) -> bool:
        """Whether something from one minute to another one is drawn."""
        is_early = self.end is not None and begin > self.end
        return not is_early and (self.begin is None or end >= self.begin)


class DayTrip(NamedTuple):
    """A trip: its number, its line, its events in turn, and when they take place."""

    id: int
    line: int
    events: list[DayEvent]
    disposed: list[int]

    @property
    def stops(self) -> tuple[int, ...]:
        """The stops along it."""
        return (self.events[0].stop_id, *(event.stop_id for event in self.events[1::2]))


class Plan:
    """The tables of a dataset, looked up by id."""

    def __init__(self, data: Dataset, choice: Choice, all_lines: list[int] | None = None) -> None:
        self.data, self.choice = data, choice
        self.all_lines = lines_of(data) if all_lines is None else all_lines
        self.place = {line: place for place, line in enumerate(self.all_lines)}

    def missing(self, *files: File[Any]) -> str:
        """Which of these files are missing, in words; nothing where all are there."""
        names = [file.name for file in files if file not in self.data]
        are = "is" if len(names) == 1 else "are"
        return f"{' and '.join(names)} {are} missing" if names else ""

    @cached_property
    def names(self) -> Index[str]:
        """What each stop is called; the id is told beside a name that several stops have."""
        plain = {
            stop.stop_id: named(stop.long_name or stop.short_name or f"stop {stop.stop_id}")
            for stop in self.data[STOPS]
        }
        often = Counter(plain.values())
        rows = {id: f"{name} ({id})" if often[name] > 1 else name for id, name in plain.items()}
        return Index("stop", STOPS, rows)

    @cached_property
    def edges(self) -> Index[Edge]:
        """The edges by id."""
        return Index("edge", EDGES, {edge.edge_id: edge for edge in self.data[EDGES]})

    @cached_property
    def lengths(self) -> dict[frozenset[int], int]:
        """How far it is from a stop to the next one, in millionths."""
        found: dict[frozenset[int], int] = {}
        for edge in self.data.get(EDGES):
            ends = frozenset((edge.left_stop, edge.right_stop))
            found[ends] = min(found.get(ends, edge.length), edge.length)
        return found

    @cached_property
    def events(self) -> Index[DayEvent]:
        """The events of the day by id."""
        rows = {event.event_id: event for event in self.data[DAY_EVENTS]}
        return Index("event", DAY_EVENTS, rows)

    @cached_property
    def disposed(self) -> Index[int]:
        """When each event takes place; as planned where there is no disposition."""
        if DISPOSITION not in self.data:
            return Index("event", DAY_EVENTS, {id: it.time for id, it in self.events.items()})
        rows = {row.event_id: row.time for row in self.data[DISPOSITION]}
        return Index("event", DISPOSITION, rows)

    @cached_property
    def all_trips(self) -> list[DayTrip]:
        """All trips of the day, by their numbers from 1."""
        found = []
        for id, row in enumerate(self.data[TRIPS], 1):
            events = [self.events[event] for event in range(row.start_id, row.end_id + 1)]
            if len(events) < 2:
                raise Refused(f"{TRIPS.name} row {id + 1}: the trip has no drive")
            disposed = [self.disposed[event.event_id] for event in events]
            found.append(DayTrip(id, row.line, events, disposed))
        return found

    @cached_property
    def trips(self) -> list[DayTrip]:
        """The trips that are drawn."""
        return [trip for trip in self.all_trips if self.is_drawn(trip)]

    def is_drawn(self, trip: DayTrip) -> bool:
        """Whether a trip is drawn."""
        begin = min(trip.events[0].time, trip.disposed[0])
        end = max(trip.events[-1].time, trip.disposed[-1])
        return self.choice.has_line(trip.line) and self.choice.has_time(begin, end)

    @cached_property
    def trip_of(self) -> Index[DayTrip]:
        """The trip of each event of the day."""
        rows = {event.event_id: trip for trip in self.all_trips for event in trip.events}
        return Index("event", TRIPS, rows)

    @cached_property
    def line_names(self) -> LineNames:
        """What lines are called."""
        return LineNames(self.data)

    def called(self, line: int) -> str:
        """What a line is called, as `tram 12`; `line 5` where nothing is told."""
        return named(self.line_names.called(line))

    def short(self, line: int) -> str:
        """What stands on the vehicles of a line; its id where nothing is told."""
        return named(self.line_names.short(line))

    def colour(self, line: int) -> str:
        """The colour of a line."""
        return self.line_names.colour(line) or style.line_colour(self.place.get(line, 0))

    def dash(self, line: int) -> str:
        """How the strokes of a line are broken."""
        return style.line_dash(self.place.get(line, 0))


def lines_of(data: Dataset) -> list[int]:
    """The lines of a dataset that are driven, by id."""
    found = {row.line_id for row in data.get(CONCEPT) if row.frequency}
    return sorted(found | {trip.line for trip in data.get(TRIPS)})
