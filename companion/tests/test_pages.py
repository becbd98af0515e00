"""The pages say what the table of the package says."""

import os
import re
import subprocess
import sys
from pathlib import Path

import pytest

from lintim_companion import formats, program
from lintim_companion.cells import Cell, Word
from lintim_companion.columns import Key, allowed, columns, file_named, header, holds, keys, unit
from lintim_companion.pages import command_table
from lintim_companion.registry import COMMANDS
from lintim_companion.tables import text_of

DOCS = program.CHECKOUT / "docs"
ROW_HEAD = "| File | A row | What it says |"


def rows_below(page: str, head: str) -> list[list[str]]:
    """The rows of the table of a page that has this head."""
    lines = (DOCS / page).read_text().splitlines()
    found = []
    for line in lines[lines.index(head) + 2 :]:
        if not line.startswith("|"):
            break
        found.append([cell.strip() for cell in line[1:-1].split("|")])
    return found


def values_of(key: Key) -> str:
    """What the page says that the value of a key may be."""
    if key.name == "last_stage":
        return "a stage"
    words = re.sub(r"(?<= or )\w+|^\w+(?= or )|(?<=, or )\w+", r"`\g<0>`", allowed(key.cell))
    if key.use.not_below:
        words += f", not below `{key.use.not_below}`"
    if key.use.at_most_half_of:
        words += f", at most half of `{key.use.at_most_half_of}`"
    return words


def test_settings() -> None:
    wanted = [
        [
            f"`{key.name}`",
            key.use.says,
            values_of(key),
            unit(key.cell),
            text_of(key.cell, key.default),
            ", ".join(key.use.stages),
        ]
        for key in keys()
    ]
    head = "| Key | What it means | Values | Unit | Default | Stages |"
    assert rows_below("SETTINGS.md", head) == wanted


def words_of(cell: Cell) -> set[str]:
    return set(cell.words) if isinstance(cell, Word) else set()


def test_words() -> None:
    text = (DOCS / "FORMAT.md").read_text()
    section = text[text.index("## Words") : text.index("## What is skipped")]
    named = set(re.findall(r"`([^`]+)`", section))
    kinds = {
        word
        for file in (formats.PERIODIC_EVENTS, formats.PERIODIC_ACTIVITIES, formats.SCHEDULE)
        for column in columns(file)
        for word in words_of(column.cell)
    }
    assert kinds <= named


def test_columns() -> None:
    """Each file that people write has its columns on the page, with units and ranges."""
    wanted = [
        [
            f"`{file.name}`" if place == 0 else "",
            column.title,
            column.says,
            holds(column.cell),
        ]
        for file in formats.FILES
        if not file.stage
        for place, column in enumerate(columns(file))
    ]
    assert rows_below("FORMAT.md", "| File | Column | What it holds | Values |") == wanted


def test_rows() -> None:
    """Each file that people write has a row on the page; those of the examples stand there."""
    rows = {name[1:-1]: row[1:-1] for name, row, _ in rows_below("FORMAT.md", ROW_HEAD)}
    assert set(rows) == {file.name for file in formats.FILES if not file.stage} | {formats.CONFIG}
    for name, row in rows.items():
        file = file_named(name)
        assert file is None or len(row.split("; ")) == len(columns(file))
        if not name.startswith(("pinned/", "waiting/", "import/")):
            found = (program.CHECKOUT / "examples").glob(f"*/{name}")
            assert any(row in path.read_text().splitlines() for path in found), name


def test_headers_that_pages_show_are_those_of_the_table() -> None:
    shown = set()
    for page in DOCS.glob("*.md"):
        shown |= set(re.findall(r"^ *(# [a-z-]+(?:; [a-z-]+)+)$", page.read_text(), re.M))
    ours = {header(file) for file in (*formats.FILES, formats.JOURNEY)}
    assert len(shown & ours) >= 10


def test_the_readme_has_the_table_of_commands() -> None:
    text = (program.CHECKOUT / "companion/README.md").read_text()
    assert "\n".join(command_table()) in text


def test_each_command_has_a_launcher_and_the_other_way_round() -> None:
    launchers = {path.name for path in (program.CHECKOUT / "companion/bin").iterdir()}
    assert launchers == {command.name for command in COMMANDS}
    for path in (program.CHECKOUT / "companion/bin").iterdir():
        assert path.stat().st_mode & 0o111 and f'main("{path.name}")' in path.read_text()


def blocks_of(path: Path, heading: str) -> list[str]:
    """The indented blocks of a section of a page."""
    text = path.read_text()
    section = text[text.index(f"{heading}\n") + len(heading) :].split("\n## ")[0]
    blocks = re.findall(r"(?:^    .*\n)+", section, re.M)
    return [re.sub(r"^    ", "", block, flags=re.M) for block in blocks]


def test_the_example_of_the_readme_runs() -> None:
    code = blocks_of(program.CHECKOUT / "companion/README.md", "## Datasets as tables")[0]
    for module in ("pandas", "networkx"):
        pytest.importorskip(module)
    subprocess.run(
        [sys.executable, "-P", "-c", code],
        cwd=program.CHECKOUT,
        env={**os.environ, "PYTHONPATH": "companion"},
        check=True,
    )
