"""Mistakes with which `lintim make` ends well: nothing is refused, and something else is planned
than was meant."""

import re
from collections.abc import Iterator

from ..cells import Fixed, Whole, WholeOrWord
from ..columns import Column, columns
from ..formats import ACTIVITY_DELAYS, DEMAND, EVENT_DELAYS, GIVEN_LOADS, STOPS
from .context import Context
from .findings import Finding, both, either, finding, rename, shown, take_out
from .findings import write_line
from .missing_told import misplaced
from .texts import Text, replaced
from .values_told import KEYS, config_rows

THOUSANDS = re.compile(r"[1-9]\d{0,2}(\.\d{3})+")
LONG_DELAY = 180  # minutes; more is rare on one day
MOST_CELLS = 5


def thousands(it: Context) -> Iterator[Finding]:
    """Cells such as 1.200, which are read as 1.2."""
    for text in it.copy.texts.values():
        if text.file is None or not _is_read(it, text.name):
            continue
        for place, column in enumerate(columns(text.file)):
            lines = _grouped(text, place, column)
            if lines:
                yield _thousands_told(text, place, column, lines)
    for row in config_rows(it):
        key = KEYS.get(row.key)
        is_last = it.config.row_of(row.key) == row
        if key and is_last and _looks_grouped(row.value, key.cell) and row.value.endswith("0"):
            new = row.value.replace(".", "")
            yield finding(
                f"{row.name} line {row.line}: {row.key} is `{row.value}`, which is read as"
                f" {float(row.value):g}: a point is no separator of thousands",
                remedy=write_line(row.name, row.line, f"{row.key}; {new}"),
                file=row.name,
            )


def _is_read(it: Context, name: str) -> bool:
    """Whether the settings let a file be read."""
    source = it.settings.load_source
    return not (
        name == DEMAND.name and source != "od" or name == GIVEN_LOADS.name and source == "od"
    )


def _looks_grouped(cell: str, kind: object) -> bool:
    """Whether a number looks like one with separators of thousands."""
    if isinstance(kind, WholeOrWord):
        kind = kind.whole
    if not THOUSANDS.fullmatch(cell) or not isinstance(kind, Whole | Fixed):
        return False
    return isinstance(kind, Fixed) or cell.endswith(".000")


def _grouped(text: Text, place: int, column: Column) -> list[int]:
    """The lines whose cell in a column looks so, where all cells with a point do, and some cells
    have none: a column of lengths with three digits each is one of lengths."""
    cells = [(row.line, row.cells[place]) for row in text.rows if place < len(row.cells)]
    pointed = [(line, cell) for line, cell in cells if "." in cell.removesuffix(".0")]
    if not pointed or not all(_looks_grouped(cell, column.cell) for _, cell in pointed):
        return []
    plain = [cell for _, cell in cells if cell.isascii() and cell.isdigit() and len(cell) < 19]
    is_large = column.name in ("customers", "load") or any(int(cell) >= 100 for cell in plain)
    return [line for line, _ in pointed] if is_large else []


def _thousands_told(text: Text, place: int, column: Column, lines: list[int]) -> Finding:
    """Cells of a column that look like thousands."""
    fixes, says = [], []
    for line in lines[:MOST_CELLS]:
        row = text.row_at(line)
        if row is not None:
            cell = row.cells[place]
            says.append(
                f"{text.name} line {line}: {column.title} is `{cell}`, which is read as"
                f" {float(cell):g}: a point is no separator of thousands"
            )
            fixes.append(write_line(text.name, line, replaced(row, place, cell.replace(".", ""))))
    if len(lines) > MOST_CELLS:
        says.append(f"and so are {len(lines) - MOST_CELLS} lines more")
    return finding(*says, remedy=both(*fixes), file=text.name)


def no_demand(it: Context) -> Iterator[Finding]:
    """Demand of nobody: rows without customers, or all of them from stops to themselves."""
    if it.settings.load_source != "od" or not it.copy.text(DEMAND.name).rows:
        return
    if not any(at.row.customers and at.row.from_stop != at.row.to_stop for at in it.names.demand):
        yield finding(
            f"{DEMAND.name} has rows and no customers that travel, so no line is driven",
            remedy=f"write the customers of two stops into {DEMAND.name}",
            file=DEMAND.name,
        )


def lonely_stops(it: Context) -> Iterator[Finding]:
    """Stops that no edge reaches."""
    lonely = [stop for stop in it.names.stops if stop not in it.names.neighbours]
    if not lonely or not it.names.edges:
        return
    told = ", ".join(it.names.stop_by_id(stop) for stop in lonely[:5])
    more = f" and {len(lonely) - 5} more" if len(lonely) > 5 else ""
    lines = [at.line for at in it.names.rows(STOPS) if at.row.stop_id in lonely][:1]
    is_one = len(lonely) == 1
    out = take_out(STOPS.name, lines[0]) if lines and is_one else f"take them out of {STOPS.name}"
    yield finding(
        f"no edge reaches stop{'' if is_one else 's'} {told}{more}, so no line stops there",
        remedy=either(f"add an edge there to basis/Edge.giv", out),
        file=STOPS.name,
    )


def late_by_hours(it: Context) -> Iterator[Finding]:
    """Delays of hours, which may be seconds."""
    for file in (EVENT_DELAYS, ACTIVITY_DELAYS):
        text = it.copy.text(file.name)
        for row in text.rows:
            cell = row.cells[-1].removesuffix(".0")
            if not cell.isascii() or not cell.isdigit() or len(cell) > 9 or len(row.cells) != 2:
                continue
            late = int(cell)
            if late <= LONG_DELAY:
                continue
            hours = f"{late // 60} h {late % 60} min"
            fix, seconds = take_out(file.name, row.line), ""
            if late % 60 == 0 and late >= 60:
                seconds = f"; {late} seconds would be {late // 60} minutes"
                fix = write_line(file.name, row.line, replaced(row, 1, str(late // 60)))
            yield finding(
                f"{file.name} line {row.line}: a delay of {late} minutes is one of {hours}"
                f"{seconds}",
                remedy=fix,
                file=file.name,
            )
            break


def misnamed(it: Context, near: dict[str, str]) -> Iterator[Finding]:
    """Files that nobody reads and that have nearly the name of one."""
    together = misplaced(near)
    yield from together
    for old, new in near.items():
        if new not in it.copy.texts and not (together and old in together[0].remedy.split()):
            yield finding(
                f"{shown(old)} is read by nobody; {new} has nearly its name and is not there",
                remedy=rename(old, new),
                file=new,
            )


def unread_source(it: Context) -> Iterator[Finding]:
    """A file of loads that is there while loads come from demand, where the settings do not say
    it."""
    if it.config.row_of("load_source") is not None or GIVEN_LOADS.name not in it.copy.texts:
        return
    says = f"{GIVEN_LOADS.name} is not read, since load_source is od where no row has it"
    ways = [it.set_key("load_source", "file")]
    if DEMAND.name in it.copy.texts:
        says += "; LinTim plans lines by it"
        ways.append(it.set_key("load_source", "od"))
    yield finding(says, remedy=either(*ways), file=GIVEN_LOADS.name)


def unread_pins(it: Context) -> Iterator[Finding]:
    """Pinned plans that are there while their keys are not in the settings at all."""
    for key, name in (
        ("pin_concept", "pinned/Line-Concept.lin"),
        ("pin_timetable", "pinned/Timetable-periodic.tim"),
        ("pin_vehicles", "pinned/Vehicle_Schedules.vs"),
    ):
        if name in it.copy.texts and it.config.row_of(key) is None:
            yield finding(
                f"{name} is not read, since {key} is no where no row has it",
                remedy=either(it.set_key(key, "yes"), it.set_key(key, "no")),
                file=name,
            )
