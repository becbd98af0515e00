"""A dataset of LinTim as one of `lintim`: what `lintim-convert in` writes and `judge` judges."""

import csv
import io
import shutil
from collections.abc import Iterator
from dataclasses import dataclass, field
from pathlib import Path
from typing import Any

from .. import dataset, files, formats, program
from .. import settings as config
from ..cells import File
from ..dataset import Dataset
from ..faults import Refused
from ..formats import Load, Settings
from ..schedules.problem import schedule_rows, vehicle_problem
from ..tables import written
from . import day as days
from . import keys, planning
from .forms import UNREAD
from .network import Lines, Network, lines_of, network_of
from .periodic import Periodic, periodic_of, timetable_rows
from .source import MENDED, Notes, Source

IDS = "import/ids.csv"
Texts = dict[str, bytes]
Values = dict[str, int | str]


@dataclass
class Taken:
    """What is taken of a folder of LinTim, part by part; a part is none where it is not there."""

    source: Source
    notes: Notes
    units: keys.Units
    values: Values
    network: Network
    lines: Lines
    demand: list[formats.Demand]
    loads: list[Load] | None
    has_other_costs: bool = False
    periodic: Periodic | None = None
    day: days.Day | None = None
    delays: days.Delays | None = None
    plans: Texts = field(default_factory=dict)  # pinned plans and delays
    pins: Values = field(default_factory=dict)

    def basis(self, loads: list[Load] | None) -> Texts:
        """The files of the folder basis without the config."""
        rows: list[tuple[File[Any], list[Any]]] = [
            (formats.STOPS, self.network.stops),
            (formats.EDGES, self.network.edges),
            (formats.POOL, self.lines.pool_rows()),
            (formats.DEMAND, self.demand),
        ]
        texts = {file.name: written(file, it) for file, it in rows if it or file in self.source}
        if loads is not None:
            texts[formats.GIVEN_LOADS.name] = written(formats.GIVEN_LOADS, loads)
        return texts

    def texts(self) -> Texts:
        """All files of the new dataset."""
        source: Values = {} if self.loads is None else {"load_source": "file"}
        text = config.with_values(b"", {**self.values, **source, **self.pins})
        return {**self.basis(self.loads), formats.CONFIG: text, **self.plans, IDS: ids_of(self)}

    def trial(self, folder: Path, **more: int | str) -> Path:
        """A folder with the dataset, in which each concept is feasible, and with settings more."""
        loads = [Load(edge.edge_id, 0, *planning.UNBOUND) for edge in sorted(self.network.edges)]
        values: Values = {**self.values, "load_source": "file", **self.pins, **more}
        texts = {**self.basis(loads), formats.CONFIG: config.with_values(b"", values), **self.plans}
        shutil.rmtree(folder, ignore_errors=True)
        files.write_all(folder, texts)
        return folder


def take(folder: Path, is_driven_only: bool, scratch: Path) -> Taken:
    """Reads a folder of LinTim, which is not changed."""
    source, notes = Source(folder), Notes()
    rows = keys.read(source)
    units = keys.units_of(rows, notes)
    values = keys.settings_of(rows, units, notes)
    net = network_of(source, keys.is_directed(rows), notes)
    if net.is_directed:
        values.update(keys.doubled_costs(values, notes))
    lines = lines_of(source, net, is_driven_only, notes)
    demand = planning.demand_of(source, notes)
    loads = planning.loads_of(source, net, notes)
    it = Taken(source, notes, units, values, net, lines, demand, loads)
    now = _settings(it, scratch)
    it.has_other_costs = planning.tell_costs(lines, net, now, notes)
    _see_basis(it, scratch)
    for name, count in source.dropped.items():
        notes.lose(f"{name}: {count} numbers have more than six digits after the point: cut")
    for name in UNREAD:
        if source.data(name) is not None:
            notes.lose(f"{name} is read by nothing here")
    if lines.frequency is not None:
        _take_plans(it, now, scratch)
    elif lines.edges:
        notes.say("there is no line concept, so no plan is taken")
    return it


def _settings(it: Taken, scratch: Path) -> Settings:
    """The settings, once they are seen to go together."""
    files.write_all(scratch / "settings", {formats.CONFIG: config.with_values(b"", it.values)})
    try:
        return config.read(scratch / "settings").values
    except Refused as why:
        raise Refused(f"{why}; keys of LinTim that do not go together: {MENDED}") from None


def _see_basis(it: Taken, scratch: Path) -> None:
    """Sees that `lintim` takes stops, edges, lines and loads, and compares loads with demand."""
    if not it.lines.edges:
        return
    place = it.trial(scratch / "basis", last_stage="cost")
    answer = program.run(place, "make")
    if answer.status:
        raise Refused(
            f"lintim make says of the new dataset: {_row_told(place, answer.last)};" f" {MENDED}"
        )
    if it.loads is not None and it.demand:
        made = program.run(it.trial(place, last_stage="load", load_source="od"), "make")
        if made.status:
            it.notes.say(f"of the demand lintim makes no loads: {_row_told(place, made.last)}")
            return
        planning.tell_loads(it.loads, dataset.read_file(place, formats.LOADS).rows, it.notes)


def _row_told(place: Path, said: str) -> str:
    """A refusal, with the row that it names."""
    words = said.removeprefix("refused: ").split(" ")
    path = place / words[0]
    if len(words) > 2 and words[1] == "row" and words[2][:-1].isdecimal() and path.is_file():
        lines = path.read_text(errors="replace").splitlines()
        at = int(words[2][:-1])
        if 0 < at <= len(lines):
            return f"{said} (`{lines[at - 1]}`)"
    return said


def _take_plans(it: Taken, now: Settings, scratch: Path) -> None:
    """Takes concept, timetable, schedule and delays, as far as they go."""
    it.plans[formats.PINNED_CONCEPT.name] = written(formats.PINNED_CONCEPT, it.lines.concept_rows())
    it.pins["pin_concept"] = "yes"
    place = it.trial(scratch / "plans", last_stage="ean")
    answer = program.run(place, "make")
    if answer.status:
        it.notes.lose(f"no timetable is taken: lintim make says {answer.last}")
        return
    made = dataset.read(place)
    it.periodic = periodic_of(it.source, made, it.lines, it.notes)
    if it.periodic is None:
        return
    for line in it.periodic.differs:
        it.notes.lose(line)
    if it.periodic.times is None:
        return
    rows = timetable_rows(it.periodic.times)
    it.plans[formats.PINNED_TIMETABLE.name] = written(formats.PINNED_TIMETABLE, rows)
    it.pins["pin_timetable"] = "yes"
    if it.source.first_there(days.DAY_FILES) in it.source:
        _take_day(it, now, made, scratch)


def _take_day(it: Taken, now: Settings, made: Dataset, scratch: Path) -> None:
    """Takes the schedule and the delays of a day."""
    assert it.periodic is not None and it.periodic.times is not None
    starts = days.starts_of(it.source, it.periodic, it.units, it.notes)
    if starts is not None:
        it.values.update(days.day_that_fits(made, it.periodic.times, starts, now, it.notes))
    place = it.trial(scratch / "day", last_stage="rollout")
    answer = program.run(place, "make")
    if answer.status:
        it.notes.lose(f"no day is taken: lintim make says {answer.last}")
        return
    rolled = dataset.read(place)
    it.delays = days.delays_of(it.source, rolled, it.periodic, it.units, it.notes)
    of_day: tuple[tuple[File[Any], list[Any]], ...] = (
        (formats.EVENT_DELAYS, it.delays.events),
        (formats.ACTIVITY_DELAYS, it.delays.activities),
    )
    it.plans.update({file.name: written(file, late) for file, late in of_day if late})
    if starts is None:
        return
    it.day = days.day_of(it.source, rolled, it.periodic, it.units, starts, it.notes)
    if it.day.vehicles is not None:
        _take_schedule(it, rolled)


def _take_schedule(it: Taken, rolled: Dataset) -> None:
    assert it.day is not None
    problem, links = vehicle_problem(rolled), days.successors(it.day)
    if not days.can_be_written(problem, links):
        it.notes.lose("the vehicle schedule is not taken: no walk joins two trips of a vehicle")
        return
    it.plans[formats.PINNED_SCHEDULE.name] = written(
        formats.PINNED_SCHEDULE, schedule_rows(problem, links)
    )
    it.pins["pin_vehicles"] = "yes"


def ids_of(it: Taken) -> bytes:
    """The table that leads from ids of the dataset back to those of LinTim."""
    out = io.StringIO()
    table = csv.writer(out, lineterminator="\n")
    table.writerow(("kind", "id", "lintim_id", "direction"))
    table.writerows(_id_rows(it))
    return out.getvalue().encode()


def _id_rows(it: Taken) -> Iterator[tuple[str, int, int, str]]:
    for stop in it.network.stops:
        yield "stop", stop.stop_id, stop.stop_id, ""
    for edge in it.network.edges:
        yield "edge", edge.edge_id, edge.edge_id, ">" if it.network.is_directed else ""
        if it.network.is_directed:
            yield "edge", edge.edge_id, it.network.twins[edge.edge_id], "<"
    for line, (here, direction) in sorted(it.lines.here.items()):
        yield "line", here, line, direction
    if it.periodic is not None:
        for ours, theirs in sorted(it.periodic.event_there.items()):
            yield "periodic event", ours, theirs, ""
        for ours, theirs in sorted(it.periodic.activity_there.items()):
            yield "periodic activity", ours, theirs, ""
    if it.delays is not None:
        for ours, theirs in sorted(it.delays.event_there.items()):
            yield "event of the day", ours, theirs, ""
        for ours, theirs in sorted(it.delays.activity_there.items()):
            yield "activity of the day", ours, theirs, ""
    if it.day is not None:
        for ours, theirs in sorted(it.day.trip_there.items()):
            yield "trip", ours + 1, theirs, ""
