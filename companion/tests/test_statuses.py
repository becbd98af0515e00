"""Each exit status of the built program, through its own `main`.

What lies between `main` and the top call is proved but for four lines, which these runs hold: the
words of the system are handed on, each of them and in their order, and the status that is given is
the one that the program ends with. A `main` that ends with 0, an answer that is changed after it was
given, other words in the place of those of the system, and one word that is taken for refused memory
each fail here.
"""

import subprocess
from collections.abc import Callable
from pathlib import Path

import pytest

from lintim_companion import program

Change = Callable[[Path], object]
STORED = program.CHECKOUT / "crates/lintim"


@pytest.fixture
def three_stops(lintim: str, example: Callable[[str], Path]) -> Path:
    return example("three-stops")


def as_it_is(folder: Path) -> None:
    """Changes nothing."""


def too_few_drives_allowed(folder: Path) -> None:
    """The first edge is driven once at most, and the second one twice at least."""
    (folder / "basis/Load.giv").write_text("1; 100; 0; 1\n2; 40; 2; 3\n")


def search_of_one_entry(folder: Path) -> None:
    with open(folder / "basis/Config.cnf", "a") as settings:
        settings.write("concept_budget; 1\n")


def stops_are_a_folder(folder: Path) -> None:
    (folder / "basis/Stop.giv").unlink()
    (folder / "basis/Stop.giv").mkdir()


def a_row_of_letters(folder: Path) -> None:
    (folder / "basis/Edge.giv").write_text("1; one; 2; 2; 4; 5\n")


def concept_of_another_hand(folder: Path) -> None:
    assert program.run(folder, "make").status == 0
    (folder / "line-planning/Line-Concept.lin").write_text("1; 1; 1; 0\n")


RUNS = [
    (as_it_is, ["make"], 0, "done"),
    (as_it_is, ["fresh"], 0, "done"),
    (as_it_is, ["demo", "1"], 0, "done"),
    (as_it_is, ["pool", "1", "3"], 0, "1; 2; 2"),
    (as_it_is, [], 2, "usage: "),
    (as_it_is, ["make", "it"], 2, "usage: "),
    (as_it_is, ["journey", "1", "3", "0"], 2, "usage: "),
    (a_row_of_letters, ["make"], 3, "refused: "),
    (too_few_drives_allowed, ["make"], 4, "no solution: concept"),
    (search_of_one_entry, ["make"], 5, "spent: concept after 1 entries"),
    (stops_are_a_folder, ["make"], 6, "file fault"),
    (concept_of_another_hand, ["check"], 9, "uncertified: concept"),
]


@pytest.mark.parametrize("change, words, status, last", RUNS)
def test_a_run_ends_with_the_status_of_its_answer(
    three_stops: Path, change: Change, words: list[str], status: int, last: str
) -> None:
    change(three_stops)
    answer = program.run(three_stops, *words)
    assert (answer.status, answer.lines[-1][: len(last)]) == (status, last)


def test_a_report_that_cannot_be_written_ends_with_7(three_stops: Path) -> None:
    with open("/dev/full", "wb") as full:
        ended = subprocess.run(
            [program.find(), "make"], cwd=three_stops, stdout=full, stderr=subprocess.PIPE
        )
    assert ended.returncode == 7
    assert ended.stderr == b"lintim: the report could not be written\n"


def test_the_stored_run_of_the_gate_is_that_of_the_example(three_stops: Path) -> None:
    assert program.run(three_stops, "make").out == (STORED / "stdout").read_text()
    for path in (STORED / "data/basis").iterdir():
        example = program.CHECKOUT / "examples/three-stops/basis" / path.name
        assert path.read_bytes() == example.read_bytes()
