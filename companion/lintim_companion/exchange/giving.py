"""A dataset of `lintim` as a folder of LinTim's form: what `lintim-convert out` writes."""

from typing import Any

from .. import dataset, formats, program
from ..cells import MILLION, File
from ..columns import keys
from ..dataset import Dataset
from ..tables import text_of, written
from . import forms
from .forms import GLOBAL_CONFIG, KEYS, OWN_KEYS, SECONDS
from .source import Notes

Texts = dict[str, bytes]
SECONDS_OF_MINUTE = 60 * MILLION
COPIED: tuple[tuple[File[Any], File[Any]], ...] = (
    (formats.STOPS, formats.STOPS),
    (formats.EDGES, formats.EDGES),
    (formats.POOL, formats.POOL),
    (formats.DEMAND, formats.DEMAND),
    (formats.LINE_COSTS, formats.LINE_COSTS),
    (formats.CONCEPT, formats.CONCEPT),
    (formats.TIMETABLE, formats.TIMETABLE),
)


class Giving:
    """The files of LinTim, made of those that stand in a dataset and are up to date."""

    def __init__(self, data: Dataset, states: dict[str, str], notes: Notes) -> None:
        self.data, self.states, self.notes = data, states, notes
        self.texts: Texts = {}
        self.on_activity: dict[int, int] = {}  # customers, in millionths
        self.at_event: dict[int, int] = {}

    def has(self, file: File[Any]) -> bool:
        """Whether a file is there and, where a stage makes it, is as it was made."""
        is_made = not file.stage or self.states.get(file.stage) == "kept"
        return is_made and file in self.data

    def put(self, file: File[Any], rows: list[Any]) -> None:
        """Writes a file."""
        self.texts[file.name] = written(file, rows)

    def all(self) -> Texts:
        """All files that can be given."""
        self.texts[formats.CONFIG] = config_text(self.data.settings)
        for file, into in COPIED:
            if self.has(file):
                self.put(into, self.data[file].rows)
        if self.has(formats.LOADS):
            self.put(formats.GIVEN_LOADS, self.data[formats.LOADS].rows)
        elif self.has(formats.GIVEN_LOADS):
            self.put(formats.GIVEN_LOADS, self.data[formats.GIVEN_LOADS].rows)
        self._periodic()
        self._day()
        self._schedule()
        self._delays()
        off = [stage for stage in formats.STAGES if self.states.get(stage) != "kept"]
        if off:
            self.notes.lose(f"left out, since lintim status does not say `kept`: {', '.join(off)}")
        return self.texts

    def _customers(self) -> None:
        """Customers on activities and at events, by the routes of the companion."""
        if not self.has(formats.TIMETABLE) or not self.data.get(formats.DEMAND).rows:
            self.notes.lose("no customers are told of events and activities: 0 stands there")
            return
        from ..timetables.network import periodic_network, whole
        from ..timetables.routes import Router, demand_of

        router = Router(periodic_network(self.data), demand_of(self.data))
        times = whole([row.time for row in self.data[formats.TIMETABLE]])
        for by, customers in zip(
            self.data[formats.PERIODIC_ACTIVITIES], router.route(times).weights.tolist()
        ):
            self.on_activity[by.activity_id] = round(customers * MILLION)
            if by.type == "drive":
                for event in (by.from_event, by.to_event):
                    self.at_event[event] = round(customers * MILLION)
        self.notes.say("customers of events and activities are those of routes of the companion")

    def _periodic(self) -> None:
        if not self.has(formats.PERIODIC_EVENTS):
            return
        self._customers()
        events = [
            forms.PeriodicEvent(*it[:4], self.at_event.get(it.event_id, 0), *it[4:])
            for it in self.data[formats.PERIODIC_EVENTS]
        ]
        self.put(forms.EVENTS, events)
        activities = [
            forms.PeriodicActivity(*it, self.on_activity.get(it.activity_id, 0))
            for it in self.data[formats.PERIODIC_ACTIVITIES]
        ]
        self.put(forms.ACTIVITIES, activities)

    def _day(self) -> None:
        if not self.has(formats.DAY_EVENTS):
            return
        events = self.data[formats.DAY_EVENTS].rows
        given = [
            forms.DayEvent(
                it.event_id,
                it.periodic_id,
                it.type,
                it.time * SECONDS_OF_MINUTE,
                self.at_event.get(it.periodic_id, 0),
                it.stop_id,
            )
            for it in events
        ]
        self.put(forms.DAY_EVENTS, given)
        activities = [
            forms.DayActivity(
                *it[:5],
                it.lower_bound * SECONDS_OF_MINUTE,
                it.upper_bound * SECONDS_OF_MINUTE,
                self.on_activity.get(it.periodic_id, 0),
            )
            for it in self.data[formats.DAY_ACTIVITIES]
        ]
        self.put(forms.DAY_ACTIVITIES, activities)
        self.put(forms.DAY_TIMES, [forms.Time(it.event_id, in_seconds(it.time)) for it in events])
        self.put(forms.TRIPS, [forms.Trip(*_timed(it, 3, 7)) for it in self.data[formats.TRIPS]])
        if self.has(formats.DISPOSITION):
            times = self.data[formats.DISPOSITION].rows
            disposed = [forms.Time(it.event_id, in_seconds(it.time)) for it in times]
            self.put(forms.DISPOSITION, disposed)

    def _schedule(self) -> None:
        if self.has(formats.SCHEDULE):
            rows = []
            for it in self.data[formats.SCHEDULE]:
                is_trip = it.type == "TRIP"
                row = it._replace(line=it.line if is_trip else -1)
                rows.append(forms.ScheduleRow(*_timed(row, 7, 11)))
            self.put(forms.SCHEDULE, rows)

    def _delays(self) -> None:
        for file, into in (
            (formats.EVENT_DELAYS, forms.EVENT_DELAYS[0]),
            (formats.ACTIVITY_DELAYS, forms.ACTIVITY_DELAYS[0]),
        ):
            if self.has(file) and self.has(formats.DAY_EVENTS):
                late = [forms.Delay(id, in_seconds(delay)) for id, delay in self.data[file].rows]
                self.put(into, late)


def in_seconds(minutes: int) -> int:
    """Minutes as seconds, in millionths."""
    return minutes * SECONDS_OF_MINUTE


def _timed(row: tuple[Any, ...], *places: int) -> list[Any]:
    """The cells of a row, with seconds in the place of minutes."""
    return [in_seconds(cell) if place in places else cell for place, cell in enumerate(row)]


def config_text(settings: formats.Settings) -> bytes:
    """The config: what LinTim includes, and all keys in LinTim's units."""
    lines = [
        "# written by lintim-convert out; a minute is a time unit",
        f'include; "{GLOBAL_CONFIG}"',
        "ptn_is_undirected; true",
        "time_units_per_minute; 1",
    ]
    for key in keys():
        value = getattr(settings, key.name)
        if KEYS.get(key.name) == SECONDS:
            value *= 60
        if key.name in KEYS or key.name in OWN_KEYS:
            lines.append(f"{key.name}; {text_of(key.cell, value)}")
    return ("\n".join(lines) + "\n").encode()


def given(folder: Any, notes: Notes) -> Texts:
    """The files of LinTim's form of a dataset."""
    data = dataset.read(folder)
    return Giving(data, program.states(folder), notes).all()
