"""Plans that are pinned and refused, and decisions without a tree."""

from pathlib import Path

from .. import dataset, files
from ..columns import columns
from ..faults import Refused
from ..formats import LOADS, MAX_HAND_BYTES, PINNED_CONCEPT, PINNED_TIMETABLE, WAITS
from ..timetables.problem import periodic_problem
from .context import Context
from .findings import Finding, call, either, finding
from .texts import Text

COMMANDS = {
    "pinned/Line-Concept.lin": ("pin_concept", "lintim-concept"),
    "pinned/Timetable-periodic.tim": ("pin_timetable", "lintim-timetable"),
    "pinned/Vehicle_Schedules.vs": ("pin_vehicles", "lintim-schedule"),
}
SAYS = {
    "frequency differs": "all rows of a line have one frequency",
    "differs from the pool": "its lines and edges are not those of basis/Pool.giv",
    "differs from the trips": "its rows are not those of vehicles that drive each trip once",
    "cannot follow": "a trip follows one that ends too late, or too far away",
    "not feasible": "it breaks a bound",
}


def pinned(it: Context, text: Text, row: int, why: str) -> Finding:
    """A pinned plan that is refused: it belongs to other files, or breaks a bound."""
    key, command = COMMANDS.get(text.name, ("pin_concept", "lintim-concept"))
    line = text.line_of(row)
    where = f"{text.name} line {line}" if line else text.name
    says = [f"{where}: {why}: {SAYS.get(why, 'it does not fit the stages before it')}"]
    if line:
        says.append(text.line(line))
    says += _broken(it, text.name) if why == "not feasible" else []
    says.append("a pinned plan belongs to the files from which it was made")
    off = it.set_key(key, "no")
    return finding(*says, remedy=either(off, call(f"lintim make; {command} .")), file=text.name)


def _broken(it: Context, name: str) -> list[str]:
    """Which edge or activity a pinned plan breaks."""
    try:
        if name == PINNED_CONCEPT.name:
            return _broken_edges(it)
        if name == PINNED_TIMETABLE.name:
            data = dataset.read(it.copy.folder)
            problem = periodic_problem(data)
            place = problem.first_broken([row.time for row in data[PINNED_TIMETABLE]])
            return [] if place is None else [f"activity {place + 1} does not keep its minutes"]
    except (Refused, IndexError):
        pass
    return []


def _broken_edges(it: Context) -> list[str]:
    drives: dict[int, int] = {}
    for at in it.names.rows(PINNED_CONCEPT):
        drives[at.row.edge_id] = drives.get(at.row.edge_id, 0) + at.row.frequency
    return [
        f"{it.names.edge(load.edge_id)}: driven {drives.get(load.edge_id, 0)} times, at least"
        f" {load.minimal_frequency} and at most {load.maximal_frequency} are allowed"
        for load in dataset.read_file(it.copy.folder, LOADS)
        if not load.minimal_frequency <= drives.get(load.edge_id, 0) <= load.maximal_frequency
    ][:5]


def unmarked_decision(folder: Path) -> Finding | None:
    """A saved waiting decision without a tree."""
    try:
        data = files.read_bytes(folder, WAITS.name, MAX_HAND_BYTES)
    except Refused:
        return None
    rows = Text(WAITS.name, data or b"").rows
    kinds = {row.cells[0] for row in rows if len(row.cells) == len(columns(WAITS))}
    if "cost" not in kinds or kinds & {"split", "leaf"}:
        return None
    return finding(
        f"{WAITS.name} has a decision without a tree, which may cost several times the best one",
        remedy=call("lintim make; lintim-waits . 10") + " with your penalty in the place of 10",
        file=WAITS.name,
    )
