"""What is to be said of a dataset: the cause of the report first, then what was passed over."""

import re
from collections.abc import Iterator
from pathlib import Path
from typing import NamedTuple

from ..faults import Refused
from ..formats import DEMAND, EDGES, GIVEN_LOADS, POOL, STOPS
from ..manners import Deadline, Progress
from . import lintim_told, silent
from .cells_told import of_cell
from .context import Context
from .copies import REFUSED_ROW, copied
from .encodings import of_bytes, without_rows
from .fields_told import of_fields
from .findings import Finding, either, finding
from .links_told import no_files, second_names
from .missing_told import missing, near_files, no_dataset
from .moved import moved
from .pools import pool_that_works
from .plans_told import pinned, unmarked_decision
from .rows_told import RULES, missing_edge
from .texts import Text
from .values_told import config_row, unknown_keys, value
from .words_told import WORDS, of_words

CELL_RULE = re.compile(r"column (\d+) (is .*)")
MOST_SILENT = 12
REFERS = {
    "unknown stop": (STOPS.name,),
    "unknown edge": (EDGES.name,),
    "missing edge": (EDGES.name, GIVEN_LOADS.name),
    "no path": (EDGES.name,),
}
OF_PLANS = (POOL.name, DEMAND.name, GIVEN_LOADS.name)


class Told(NamedTuple):
    """The last line of the report of `lintim`, and what is to be said."""

    report: str
    findings: list[Finding]


def explain(folder: Path, words: list[str], deadline: Deadline, progress: Progress) -> Told:
    """What is to be said of a dataset, or of words that `lintim` is given there."""
    if not folder.is_dir():
        raise Refused(f"{folder}: {'no folder' if folder.exists() else 'no such folder'}")
    none = no_dataset(folder)
    if none is not None and (not words or words[0] in WORDS and words[0] != "demo"):
        return Told("", [none])
    with copied(folder) as copy:
        it = Context(copy, copy.answer, deadline, progress)
        if words and words not in (["make"], ["fresh"]):
            told = of_words(it, folder, words)
            if told or it.answer.status == 0:
                return Told("", told)
        return _of_make(it, folder)


def _of_make(it: Context, folder: Path) -> Told:
    faults = [one for one in no_files(folder) if _is_read(it, one.file)]
    faults += second_names(folder, it.copy)
    if faults:
        return Told("file fault", faults)
    near = near_files(folder)
    seen = [_of_text(it, text) for text in _read_texts(it)]
    bytes_told = [one for one in seen if one is not None]
    first = _of_report(it, folder)
    causes = [one for one in bytes_told if one.file in _concerned(it, first)]
    if it.answer.status != 0 and causes:
        first = []
    others = [one for one in bytes_told if one not in causes]
    found = [*causes, *first, *others, *_silent(it, folder, near)]
    if it.answer.status == 0:
        found = [*bytes_told, *_silent(it, folder, near)]
    return Told(it.answer.last, _each_once(found))


def _of_text(it: Context, text: Text) -> Finding | None:
    seen = of_bytes(text)
    is_network = it.answer.status != 0 or len(it.names.stops) > 1
    found = seen or (without_rows(text) if is_network else None)
    if found is not None and seen is None and text.name == POOL.name:
        return found._replace(remedy=either(pool_that_works(it), found.remedy))
    return found


def _read_texts(it: Context) -> Iterator[Text]:
    for name, text in it.copy.texts.items():
        if _is_read(it, name):
            yield text


def _is_read(it: Context, name: str) -> bool:
    """Whether the settings let a file, or what is in a folder, be read."""
    now = it.settings
    if name in (DEMAND.name, GIVEN_LOADS.name):
        return (name == DEMAND.name) is (now.load_source == "od")
    if name.startswith("pinned"):
        key = {"L": now.pin_concept, "T": now.pin_timetable}.get(name[7:8], now.pin_vehicles)
        return key == "yes" and name.endswith((".lin", ".tim", ".vs"))
    return not name.startswith("waiting")


def _concerned(it: Context, first: list[Finding]) -> set[str]:
    """The files that may be the cause of the report."""
    row = REFUSED_ROW.fullmatch(it.answer.last)
    found = {one.file for one in first}
    if row:
        found |= {row[1], *REFERS.get(row[3], ())}
        if row[3] in ("unknown event", "unknown activity"):
            found |= {*OF_PLANS}
    if it.answer.last.startswith("no solution: concept"):
        found.add(POOL.name)
    return found


def _of_report(it: Context, folder: Path) -> list[Finding]:
    """What the report means."""
    last = it.answer.last
    row = REFUSED_ROW.fullmatch(last)
    if row:
        return [_of_row(it, folder, row[1], int(row[2]), row[3])]
    gone = re.fullmatch(r"refused: (\S+) is missing", last)
    if gone:
        return [missing(it, folder, gone[1])]
    key = re.fullmatch(r"refused: value of (\S+)", last)
    if key:
        return [value(it, key[1])]
    return _of_plans(it, last)


def _of_plans(it: Context, last: str) -> list[Finding]:
    """What a count over its limit, no solution, or a search that is spent means."""
    count = re.fullmatch(r"refused: too many ([a-z ]+): (\d+)", last)
    if count:
        from .counts_told import too_many

        return [too_many(it, count[1], int(count[2]))]
    if last == "no solution: concept" or last.startswith("spent: concept"):
        from . import concept_told

        tell = concept_told.no_concept if last.startswith("no") else concept_told.spent
        return [tell(it)]
    if last == "no solution: timetable" or last.startswith("spent: timetable"):
        from . import timetable_told

        told = timetable_told.no_timetable if last.startswith("no") else timetable_told.spent
        return [told(it)]
    if it.answer.status != 0:
        too_long = re.fullmatch(r"refused: (\S+) is too long", last)
        name = too_long[1] if too_long else ""
        says = f"{name} has more than 64 MiB, and lintim reads no longer file" if name else last
        return [finding(says, remedy="leave rows out that do not count" if name else "", file=name)]
    return []


def _of_row(it: Context, folder: Path, name: str, row: int, why: str) -> Finding:
    """What a refused row means."""
    text = it.copy.text(name)
    line = text.line_of(row)
    if name.startswith("pinned/") and not CELL_RULE.fullmatch(why) and "fields" not in why:
        return pinned(it, text, row, why)
    cell = CELL_RULE.fullmatch(why)
    if cell:
        return of_cell(it, text, line, int(cell[1]) - 1, cell[2])
    if why == "wrong number of fields":
        return of_fields(it, text, line)
    at = text.row_at(line)
    if name.endswith(".cnf"):
        if at is not None and len(at.cells) > 1 and lintim_told.is_include_of_lintim(at.cells[1]):
            return lintim_told.include(text, line, folder)
        return config_row(it, text, line, why)
    if why == "missing edge":
        return missing_edge(it, text)
    if at is not None and why in RULES:
        return RULES[why](it, text, at)
    return finding(f"{name} line {line}: {why}", file=name)


def _silent(it: Context, folder: Path, near: dict[str, str]) -> list[Finding]:
    """What nobody says, whatever the report is."""
    found = [
        *lintim_told.of_lintim(it, folder),
        *unknown_keys(it),
        *silent.unread_source(it),
        *silent.unread_pins(it),
        *silent.thousands(it),
        *(silent.no_demand(it) if DEMAND.name not in it.answer.last else ()),
        *silent.late_by_hours(it),
        *silent.misnamed(it, near),
        *moved(it, folder),
        *(silent.lonely_stops(it) if not it.answer.last.endswith("no path") else ()),
    ]
    for line in it.answer.lines:
        if line.startswith("concept: ") and "not proved optimal" in line:
            from .concept_told import unmarked

            found.append(unmarked(it, line))
    decision = unmarked_decision(folder)
    return found[:MOST_SILENT] + ([decision] if decision else [])


def _each_once(found: list[Finding]) -> list[Finding]:
    """The findings without those that say or want the same as one before."""
    kept: list[Finding] = []
    for one in found:
        is_new = all(one.why != old.why for old in kept)
        if is_new and all(not one.remedy or one.remedy != old.remedy for old in kept):
            kept.append(one)
    return kept
