"""The course of `docs/COURSE.md`: its commands, what they print, and its notebook.

A block of the page has lines that begin with `$ `, which are commands, with `> ` where a command
goes on, and after each one what it prints. All commands of a block run in one shell, which begins in the folder of the course."""

import json
import re
from collections.abc import Iterator, Mapping
from pathlib import Path
from subprocess import PIPE, STDOUT, run
from typing import Any, NamedTuple

from . import program

PAGE = program.CHECKOUT / "docs/COURSE.md"
NOTEBOOK = program.CHECKOUT / "docs/COURSE.ipynb"
MARK = "@@ the next command"


class Step(NamedTuple):
    """A command, and the lines that the page shows after it."""

    command: str
    shown: list[str]


Block = list[Step]


def parts_of(page: str) -> Iterator[str | Block]:
    """The text of a page and its blocks of commands, in turn."""
    for part in re.split(r"((?:^    \$ .*\n(?:^    .*\n)*)+)", page, flags=re.M):
        if not part.startswith("    $ "):
            yield part
            continue
        steps: Block = []
        for line in part.splitlines():
            line = line.removeprefix("    ")
            if line.startswith("$ "):
                steps.append(Step(line.removeprefix("$ "), []))
            elif line.startswith("> "):
                steps[-1] = Step(f"{steps[-1].command}\n{line.removeprefix('> ')}", [])
            else:
                steps[-1].shown.append(line)
        yield steps


def blocks_of(page: str) -> list[Block]:
    """The blocks of commands of a page."""
    return [part for part in parts_of(page) if not isinstance(part, str)]


def printed(block: Block, folder: Path, environment: Mapping[str, str]) -> list[list[str]]:
    """What the commands of a block print, run in a folder."""
    script = "".join(f"{step.command}\necho '{MARK}'\n" for step in block)
    ended = run(["bash", "-c", script], cwd=folder, env=environment, stdout=PIPE, stderr=STDOUT)
    parts = ended.stdout.decode().split(f"{MARK}\n")
    return [part.splitlines() for part in parts[:-1]]


def steady(line: str) -> str:
    """A line without what differs from run to run: seconds."""
    return re.sub(r"\d+\.\d s\b", "N s", line)


def notebook_of(page: str) -> dict[str, Any]:
    """The page as a notebook, with a cell of bash for each block."""
    cells: list[dict[str, Any]] = []
    for number, part in enumerate(parts_of(page)):
        if isinstance(part, str):
            if part.strip():
                words = {"cell_type": "markdown", "id": f"c{number}", "metadata": {}}
                cells.append({**words, "source": _lines(part.strip())})
            continue
        script = "\n".join(["%%bash --no-raise-error", *(step.command for step in part)])
        code = {"cell_type": "code", "id": f"c{number}", "metadata": {}, "execution_count": None}
        cells.append({**code, "outputs": [], "source": _lines(script)})
    kernel = {"display_name": "Python 3", "language": "python", "name": "python3"}
    return {
        "cells": cells,
        "metadata": {"kernelspec": kernel, "language_info": {"name": "python"}},
        "nbformat": 4,
        "nbformat_minor": 5,
    }


def _lines(text: str) -> list[str]:
    return text.splitlines(keepends=True)


def notebook_text() -> str:
    """The text of the notebook of the page."""
    return json.dumps(notebook_of(PAGE.read_text()), indent=1, ensure_ascii=False) + "\n"


if __name__ == "__main__":
    NOTEBOOK.write_text(notebook_text())
