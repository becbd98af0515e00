"""The page and the notebook of the course: their commands print what they show."""

import json
import os
import subprocess
from pathlib import Path

import pytest

from commands import BIN, PYTHON
from lintim_companion import course, program
from lintim_companion.faults import Refused
from lintim_companion.manners import see_package
from lintim_companion.registry import Package

pytestmark = pytest.mark.usefixtures("lintim")


@pytest.fixture
def environment(tmp_path: Path, lintim: str) -> dict[str, str]:
    """The environment of a class: `lintim` and the commands on the PATH, and CHECKOUT."""
    (tmp_path / "bin").mkdir()
    (tmp_path / "bin/lintim").symlink_to(lintim)
    path = f"{tmp_path}/bin:{BIN}:{os.environ['PATH']}"
    return {**os.environ, "CHECKOUT": str(program.CHECKOUT), "PATH": path, "LINTIM": lintim}


def steady(lines: list[str]) -> list[str]:
    return [course.steady(line) for line in lines]


def test_the_commands_of_the_course_print_what_the_page_shows(
    tmp_path: Path, environment: dict[str, str]
) -> None:
    blocks = course.blocks_of(course.PAGE.read_text())
    (tmp_path / "course").mkdir()
    for block in blocks:
        printed = course.printed(block, tmp_path / "course", environment)
        for step, lines in zip(block, printed, strict=True):
            assert steady(lines) == steady(step.shown), step.command
    assert len(blocks) >= 9


def test_the_course_has_nine_exercises_with_answers() -> None:
    text = course.PAGE.read_text()
    for number in range(1, 10):
        assert f"## {number}. " in text and f"**Question {number}.**" in text
        assert f"**{number}.**" in text[text.index("## Answers") :]


def test_the_notebook_is_that_of_the_page() -> None:
    assert course.NOTEBOOK.read_text() == course.notebook_text()


def outputs(notebook: Path) -> list[str]:
    """The lines that all cells of a notebook that was run show."""
    cells = json.loads(notebook.read_text())["cells"]
    found = [out for cell in cells for out in cell.get("outputs", [])]
    return "".join("".join(out.get("text", [])) for out in found).splitlines()


def test_the_notebook_runs(tmp_path: Path, environment: dict[str, str]) -> None:
    try:
        for package in (
            Package("jupyter-nbconvert", program="jupyter-nbconvert"),
            Package("python3-ipykernel", module="ipykernel"),
        ):
            see_package(package)
    except Refused as why:
        pytest.skip(str(why))
    ran = tmp_path / "ran"
    ran.mkdir()
    (ran / "course.ipynb").write_bytes(course.NOTEBOOK.read_bytes())
    words = ["-m", "nbconvert", "--to", "notebook", "--execute", "--inplace", "course.ipynb"]
    ended = subprocess.run(
        [*PYTHON, *words],
        cwd=ran,
        env={**environment, "JUPYTER_PATH": "/usr/share/jupyter"},
        capture_output=True,
        text=True,
    )
    assert ended.returncode == 0, ended.stderr
    shown = [
        line
        for block in course.blocks_of(course.PAGE.read_text())
        for it in block
        for line in it.shown
    ]
    assert sorted(steady(outputs(ran / "course.ipynb"))) == sorted(steady(shown))
