"""`lintim-why`: what it says of mistakes, and that what it says would help does."""

import shutil
from pathlib import Path
from typing import Any

import pytest

import follow
from commands import run
from conftest import Folders
from lintim_companion import program
from mistakes import USUAL, Mistake
from more_mistakes import OWN
from told import TOWN, folder_with, lines_of, told_of, wanted

pytestmark = pytest.mark.usefixtures("lintim")
ALL = (*USUAL, *OWN)
WANTED = wanted()
OPEN = {  # mistakes that no script can put right, since something is to be thought of
    "empty Stop",
    "empty Edge",
    "empty OD",
    "OD as a matrix",
    "run in an empty folder",
    "Edge is a folder",
    "missing value NaN",
    "huge demand",
    "error of a spreadsheet",
    "a spreadsheet file",
    "keys by other names",
    "demand of nobody",
    "edges of both directions",
    "made files of LinTim",
}


def _case(mistake: Mistake) -> Any:
    """A mistake as a case; where times are searched long, it is left to long tests."""
    is_long = mistake.name in LONG
    return pytest.param(mistake, id=mistake.name, marks=[pytest.mark.long] if is_long else [])


LONG = {"changes of at most 20 minutes"}
mistakes = pytest.mark.parametrize("mistake", [_case(mistake) for mistake in ALL])


def test_the_table_has_84_usual_mistakes_and_40_more() -> None:
    names = [mistake.name for mistake in ALL]
    assert len(set(names)) == len(names) and set(names) == set(WANTED)
    assert sum(bool(WANTED[mistake.name]) for mistake in USUAL) >= 84
    assert sum(bool(WANTED[mistake.name]) for mistake in OWN) >= 40


@mistakes
def test_what_is_said_and_that_it_helps(mistake: Mistake, tmp_path: Path) -> None:
    folder = folder_with(mistake, tmp_path / "town")
    told = told_of(folder, mistake.words)
    assert lines_of(told) == WANTED[mistake.name]
    is_of_make = mistake.words == "make" and mistake.below == "."
    last = folder
    for number, finding in reversed([*enumerate(told.findings)]):
        for place, way in reversed([*enumerate(follow.alternatives(finding.remedy))]):
            last = tmp_path / f"{number}-{place}"
            shutil.copytree(folder, last, symlinks=True)
            follow.follow(last, way)
            if is_of_make:
                after = told_of(last)
                assert finding.why not in [other.why for other in after.findings], way
                assert number or told.report == "done" or after.report != told.report, way
    if is_of_make and mistake.name not in OPEN:
        follow.until_good(last, lambda at: [it.remedy for it in told_of(at).findings])
        assert program.run(last, "make").status == 0


@pytest.mark.parametrize(
    "name", ["three-stops", "market-town", *(f"demo {n}" for n in range(1, 7))]
)
def test_nothing_is_said_of_good_datasets(name: str, example: Folders) -> None:
    folder = example(name)
    for _ in range(2):
        ended = run("lintim-why", folder)
        assert (ended.status, ended.out, ended.err) == (0, [], [])
        program.run(folder, "make")


@pytest.mark.long
@pytest.mark.parametrize("name", ["demo 7", "demo 8"])
def test_nothing_is_said_of_large_demos(name: str, example: Folders) -> None:
    ended = run("lintim-why", example(name))
    assert (ended.status, ended.out, ended.err) == (0, [], [])


def test_as_a_command(tmp_path: Path) -> None:
    folder = folder_with(Mistake("", lambda at: (at / "basis/OD.giv").unlink()), tmp_path / "town")
    ended = run("lintim-why", folder)
    assert ended.status == 1 and not ended.err
    assert ended.out[0] == "lintim make ends with: refused: basis/OD.giv is missing"
    ended = run("lintim-why", TOWN, "journey", "Markt", "9", "07:00")
    assert ended.status == 1 and ended.out[-1] == "try: run `lintim journey 3 9 420 planned`"
    ended = run("lintim-why", "chekc")
    assert ended.status == 1 and ended.out[-1] == "try: run `lintim check`"
    assert run("lintim-why", TOWN, "--seconds", 0).status == 2
    assert run("lintim-why", tmp_path / "none").one_line().endswith("no such folder")
