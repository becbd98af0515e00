"""The program `lintim`: where it is, and what it says of a dataset."""

import hashlib
import os
import shutil
import subprocess
import time
from collections.abc import Iterator
from pathlib import Path
from typing import Any, NamedTuple

from .cells import File
from .faults import NoProgram, Refused

CHECKOUT = Path(__file__).resolve().parents[2]
BUILT = ("crates/lintim/out/lintim", "program/lintim")  # in a checkout, and as it is installed
GIVEN = CHECKOUT / "dist/lintim"  # the proved one of a checkout, of which PROVED beside it tells
STATUS_WORDS = {
    "stale": "it is not made of what stands there now",
    "unknown": "a stage before it is not up to date",
    "edited": "its files are not as they were made",
    "off": "it comes after last_stage",
}


GRACE = 10.0  # seconds that a run of `lintim` has, although the time is over
_end: list[float] = []  # when the time is over, if it is ever


def give(seconds: float) -> None:
    """Lets the runs of `lintim` from now on take so many seconds together."""
    _end[:] = [time.monotonic() + seconds]


class Answer(NamedTuple):
    """What a run of `lintim` printed, and its exit status."""

    status: int
    out: str
    err: str

    @property
    def lines(self) -> list[str]:
        """The lines of the report."""
        return self.out.splitlines()

    @property
    def last(self) -> str:
        """The last line of the report, or of the standard error where there is none."""
        return ([""] + self.err.splitlines() + self.lines)[-1]

    def line_of(self, stage: str) -> str:
        """The line of a stage, or the last one where there is none."""
        return next((line for line in self.lines if line.startswith(f"{stage}: ")), self.last)


def _given() -> list[Path]:
    """The program that came with the checkout, where it has the bytes of which `PROVED` tells."""
    try:
        said = GIVEN.with_name("PROVED").read_text().splitlines()
        found = hashlib.sha256(GIVEN.read_bytes()).hexdigest()
    except (OSError, ValueError):
        return []
    return [GIVEN] if f"sha256: {found}" in said else []


def find() -> str:
    """The path of the program: what `LINTIM` names, else `lintim` on the PATH, else the one that
    is built in this checkout, or that came with it."""
    named = os.environ.get("LINTIM")
    found = shutil.which(named or "lintim")
    if named and not found:
        raise NoProgram(f"LINTIM is {named!r}, which is no program")
    if not found:
        built = next((it for it in _places() if os.access(it, os.X_OK)), None)
        if built is None:
            raise NoProgram("lintim is not found: put it on the PATH, or name it in LINTIM")
        found = str(built)
    return os.path.abspath(found)


def _places() -> Iterator[Path]:
    """Where the program may stand that belongs to this package."""
    yield from (CHECKOUT / name for name in BUILT)
    yield from _given()
    yield from _installed()


def _installed() -> list[Path]:
    """The program that `pip` installed together with this package."""
    from importlib import metadata

    try:
        found = metadata.files("lintim-companion") or []
    except metadata.PackageNotFoundError:
        return []
    return [Path(str(it.locate())) for it in found if it.name == "lintim"]


def run(folder: str | Path, *words: str) -> Answer:
    """Runs `lintim` in a folder, and waits for it."""
    program = find()
    left = max(GRACE, _end[0] - time.monotonic()) if _end else None
    try:
        ended = subprocess.run(
            [program, *words],
            cwd=folder,
            stdin=subprocess.DEVNULL,
            capture_output=True,
            timeout=left,
        )
    except subprocess.TimeoutExpired:
        says = f"{program} {words[0]} gave no answer in {left:.0f} seconds"
        raise Refused(f"{says}; --seconds allows more") from None
    except OSError as why:
        raise NoProgram(f"{program} cannot be run: {why.strerror}") from None
    out, err = (text.decode(errors="replace") for text in (ended.stdout, ended.stderr))
    return Answer(ended.returncode, out, err)


def states(folder: str | Path) -> dict[str, str]:
    """What `lintim status` says of each stage."""
    answer = run(folder, "status")
    if answer.status != 0:
        says = ", ".join(answer.lines + answer.err.splitlines()) or f"nothing ({answer.status})"
        raise Refused(f"lintim status says: {says}")
    return {stage: state for stage, _, state in (line.partition(": ") for line in answer.lines)}


def see_kept(folder: str | Path, *files: File[Any]) -> None:
    """Sees that the stages that make these files are up to date, and their files as made."""
    found = states(folder)
    for stage in dict.fromkeys(file.stage for file in files if file.stage):
        state = found.get(stage, "")
        if state != "kept":
            why = STATUS_WORDS.get(state, "lintim status does not name it")
            raise Refused(f"stage {stage} is {state or 'unknown'}: {why}; run lintim make first")
