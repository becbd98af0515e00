"""What `lintim-why` says of each mistake, beside the table of what is wanted (`data/why.txt`)."""

import shutil
from pathlib import Path

from lintim_companion import program
from lintim_companion.advice.explain import Told, explain
from lintim_companion.manners import Deadline, Progress
from mistakes import Mistake

TOWN = Path(__file__).parent / "data/town"
WANTED = Path(__file__).parent / "data/why.txt"


def folder_with(mistake: Mistake, folder: Path) -> Path:
    """The dataset with a mistake, and the folder in which its author stands."""
    shutil.copytree(TOWN, folder)
    if mistake.is_made:
        program.run(folder, "make")
    if mistake.edit:
        mistake.edit(folder)
    return folder / mistake.below


def told_of(folder: Path, words: str = "make") -> Told:
    """What is said of a folder, or of words there."""
    given = words.split() or [""]
    return explain(folder, given, Deadline(120), Progress("test", None))


def lines_of(told: Told) -> list[str]:
    """How it is printed."""
    lines = [line for finding in told.findings for line in finding.lines()]
    return [f"lintim make ends with: {told.report}"] + lines if told.report and lines else lines


def wanted() -> dict[str, list[str]]:
    """What is wanted of each mistake, by its name."""
    found: dict[str, list[str]] = {}
    for line in WANTED.read_text().splitlines():
        if line.startswith("== "):
            lines = found[line[3:]] = []
        elif line:
            lines.append(line)
    return found


def text_of(told: dict[str, list[str]]) -> str:
    """The text of the table."""
    return "\n".join("\n".join([f"== {name}", *lines, ""]) for name, lines in told.items())
