"""What somebody with datasets of LinTim runs and sends back: `in`, `make`, `check`, `out` and `judge`
over each of them, told in ten lines without names of places."""

from collections.abc import Callable, Iterator
from pathlib import Path
from typing import Any

from .. import files, formats, program
from ..cells import File
from ..columns import columns
from ..faults import Refused
from ..manners import Deadline, Progress
from ..rows import decoded, rows_of
from ..version import VERSION
from . import forms
from .giving import given
from .judging import Judge
from .source import Notes, Source
from .taking import Taken, take
from .trusted import see_pins

FILES: tuple[File[Any], ...] = (
    *(formats.STOPS, formats.EDGES, formats.GIVEN_LOADS, formats.DEMAND, formats.POOL),
    *(formats.LINE_COSTS, formats.CONCEPT, forms.EVENTS, forms.ACTIVITIES, formats.TIMETABLE),
    *(forms.DAY_EVENTS, forms.DAY_ACTIVITIES, forms.TRIPS, forms.SCHEDULE),
)
SHOWN = 4


def report(folder: Path, number: int, seconds: int, progress: Progress) -> Iterator[str]:
    """The ten lines of a dataset, each as soon as it is known."""
    yield f"dataset {number}, lintim-convert {VERSION}"
    with files.scratch("lintim-kit-") as scratch:
        yield from _told("columns", lambda: _columns(Source(folder)))
        try:
            taken = take(folder, False, scratch)
            see_pins(taken)
        except Refused as why:
            yield f"in: refused: {why}"
            yield from (f"{word}: not run" for word in ("found", "lost", "make", "check", "out"))
            yield "back: not run"
            yield "judge: not run"
            return
        pins = [key.removeprefix("pin_") for key, value in taken.pins.items() if value == "yes"]
        yield f"in: pinned {', '.join(pins) or 'nothing'}"
        yield f"found: {_found(taken)}"
        yield f"lost: {len(taken.notes.lost)}: {' | '.join(taken.notes.lost[:SHOWN])}"
        new = scratch / "new"
        files.write_all(new, taken.texts())
        yield f"make: {program.run(new, 'make').last}"
        yield f"check: {program.run(new, 'check').last}"
        yield from _told("out", lambda: _out(new, scratch / "there"))
        yield from _told("back", lambda: _back(taken, scratch))
        deadline = Deadline(seconds)
        judge = Judge(taken, scratch / "judge", deadline, progress)
        yield from _told("judge", lambda: " | ".join([*judge.judged().lines, judge.verdict.last]))


def _told(word: str, how: Callable[[], str]) -> Iterator[str]:
    """A line, or why there is none."""
    try:
        yield f"{word}: {how()}"
    except Refused as why:
        yield f"{word}: refused: {why}"


def _columns(source: Source) -> str:
    """How many files have as many columns as is thought, and those that have not."""
    good, others = 0, []
    for file in FILES:
        first = next(rows_of(decoded(source.data(file.name) or b"")), None)
        if first is not None and len(first.cells) == len(columns(file)):
            good += 1
        elif file in source:
            count = len(first.cells) if first else 0
            others.append(f"{file.name} has {count} and not {len(columns(file))}")
    return f"{good} files as thought; {', '.join(others) or 'no others'}"


def _found(taken: Taken) -> str:
    """How much of the plans was found."""
    parts = [f"{len(taken.network.edges)} edges", f"{len(taken.lines.edges)} lines"]
    if taken.periodic is not None:
        parts.append(f"{len(taken.periodic.event_here)} periodic events")
        parts.append(f"{len(taken.periodic.activity_there)} periodic activities")
    if taken.day is not None:
        parts.append(f"{len(taken.day.trip_there)} trips, {len(taken.day.alone)} here alone")
    return ", ".join(parts)


def _out(new: Path, there: Path) -> str:
    """How many files are written for LinTim."""
    texts = given(new, Notes())
    files.write_all(there, texts)
    return f"{len(texts)} files"


def _back(taken: Taken, scratch: Path) -> str:
    """Whether what was written for LinTim is taken as the same dataset."""
    again = take(scratch / "there", False, scratch / "again").texts()
    names = (formats.STOPS, formats.EDGES, formats.POOL, formats.DEMAND, formats.PINNED_TIMETABLE)
    before = taken.texts()
    others = [it.name for it in names if before.get(it.name) != again.get(it.name)]
    return f"{', '.join(others)} differ" if others else "the same"
