"""Guesses of demand: their sums, their margins, what is told, and what is refused."""

from collections.abc import Callable
from pathlib import Path

import numpy
import pytest
from hypothesis import given, settings
from hypothesis import strategies as some

from commands import run
from conftest import Folders
from lintim_companion import dataset, formats, program
from lintim_companion.demand import guesses, network
from lintim_companion.formats import Edge

ROWS = formats.DEMAND
Lines = Callable[..., Path]


def guessed(folder: Path, *words: object) -> list[str]:
    """What the command says, where it ends well."""
    ended = run("lintim-demand", words[0], folder, *words[1:])
    assert ended.status == 0, ended
    return list(ended.out)


def total(folder: Path) -> float:
    """All customers of a dataset."""
    return sum(row.customers for row in dataset.read(folder)[ROWS]) / 10**6


def test_gravity_is_scaled_and_called_a_guess(example: Folders) -> None:
    folder = example("market-town")
    own = (folder / ROWS.name).read_bytes()
    ended = run("lintim-demand", "gravity", folder)
    assert ended.status == 1 and "--replace writes over it" in ended.one_line()
    assert (folder / ROWS.name).read_bytes() == own
    said = guessed(folder, "gravity", "--customers", 5000, "--slice", 8, "--replace")
    assert (
        said[0].startswith("demand: a guess: gravity by departures") and "400 customers" in said[0]
    )
    assert (folder / ROWS.name).read_text().startswith("# a guess of lintim-demand: gravity by ")
    assert abs(total(folder) - 400) < 0.1
    guessed(folder, "gravity")  # a guess takes the place of a guess
    rows = {(it.from_stop, it.to_stop): it.customers for it in dataset.read(folder)[ROWS]}
    assert all(abs(rows[b, a] - count) <= 1000 for (a, b), count in rows.items())


def test_without_a_number_a_quarter_of_the_places_is_filled(example: Folders) -> None:
    folder = example("demo 5")
    said = guessed(folder, "gravity", "--replace")
    assert "take 25 % of the places" in said[1]
    edges = [line for line in said if line.startswith("demand: edge ")]
    assert len(edges) == 10


@pytest.mark.usefixtures("lintim")
def test_lintim_takes_a_guess(example: Folders) -> None:
    folder = example("demo 5")
    guessed(folder, "gravity", "--replace")
    assert program.run(folder, "make").status == 0


def test_people_and_counts(example: Folders, tmp_path: Path) -> None:
    folder, people = example("three-stops"), tmp_path / "people.csv"
    people.write_text("# stop; people\n1; 100\n2; 0\n3; 50\n")
    guessed(folder, "gravity", "--people", people, "--customers", 90, "--replace")
    assert {row[:2] for row in dataset.read(folder)[ROWS]} == {(1, 3), (3, 1)}
    counts = tmp_path / "counts.csv"
    counts.write_text("1; 60; 20\n2; 10; 30\n3; 20; 40\n")
    said = guessed(folder, "counts", "--counts", counts)
    assert "margins met to " in said[0]
    rows = dataset.read(folder)[ROWS]
    for place, (boardings, alightings) in enumerate(((60, 20), (10, 30), (20, 40)), 1):
        got_in = sum(it.customers for it in rows if it.from_stop == place) / 10**6
        got_out = sum(it.customers for it in rows if it.to_stop == place) / 10**6
        assert abs(got_in - boardings) < 0.01 and abs(got_out - alightings) < 0.01


def test_a_matrix_of_zones_is_laid_on_stops(example: Folders, tmp_path: Path) -> None:
    folder = example("three-stops")
    (tmp_path / "zones").write_text("west; 1; 3\nwest; 2; 1\neast; 3; 1\n")
    (tmp_path / "matrix").write_text("west; east; 80\neast; west; 40\nwest; west; 16\n")
    said = guessed(
        *(folder, "matrix", "--matrix", tmp_path / "matrix"),
        *("--zones", tmp_path / "zones", "--replace"),
    )
    rows = {row[:2]: row.customers // 10**6 for row in dataset.read(folder)[ROWS]}
    assert rows == {(1, 3): 60, (2, 3): 20, (3, 1): 30, (3, 2): 10, (1, 2): 3, (2, 1): 3}
    assert "without 10 customers within a stop" in said[0]


@pytest.mark.parametrize(
    "text, says",
    [
        ("9; 5\n", "row 1: unknown stop (9)"),
        ("1; 5\n\n1; 6\n", "row 2: stop 1 comes twice"),
        ("1; x\n", "row 1: column 2 is not a number"),
        ("1; 2; 3\n", "row 1: wrong number of fields"),
        ("1; 0\n", "no customer can go"),
        ("", "no customer can go"),
    ],
)
def test_a_bad_file_is_one_line(text: str, says: str, example: Folders, tmp_path: Path) -> None:
    folder, people = example("three-stops"), tmp_path / "people"
    people.write_text(text)
    ended = run("lintim-demand", "gravity", folder, "--people", people, "--replace")
    assert ended.status == 1 and says in ended.one_line()
    assert not (folder / ROWS.name).exists()


def test_words_that_do_not_fit(example: Folders) -> None:
    folder = example("three-stops")
    for words, says in (
        (("other", folder), "is not gravity, counts or matrix"),
        (("counts", folder), "counts wants --counts"),
        (("gravity", folder, "--zones", "x"), "gravity has no --zones"),
    ):
        ended = run("lintim-demand", *words)
        assert ended.status == 2 and says in ended.one_line()


@given(some.lists(some.tuples(some.integers(1, 99), some.integers(1, 99)), min_size=3, max_size=6))
@settings(max_examples=50, deadline=None)
def test_margins_that_can_be_met_are(counts: list[tuple[int, int]]) -> None:
    """Where no stop has more than half of all customers, both sums by stops are met."""
    got_in, got_out = (numpy.array(it, float) for it in zip(*counts))
    got_out *= got_in.sum() / got_out.sum()
    minutes = numpy.full((len(counts), len(counts)), 7.0)
    numpy.fill_diagonal(minutes, 0)
    found = guesses.fitted(got_in, got_out, minutes)
    assert (found.customers >= 0).all() and not found.customers.diagonal().any()
    if (got_in + got_out).max() < 0.9 * got_in.sum():
        assert found.apart < 1e-3
    assert abs(found.customers.sum() - got_in.sum()) < 1e-6 * got_in.sum()


@given(some.integers(0, 10**6))
@settings(max_examples=30, deadline=None)
def test_loads_are_those_of_ways_driven_one_by_one(seed: int) -> None:
    chance = numpy.random.default_rng(seed)
    count = int(chance.integers(2, 8))
    stops = list(range(1, count + 1))
    edges = [Edge(at, at, at + 1, 10**6, int(chance.integers(1, 9)), 9) for at in range(1, count)]
    edges.append(Edge(count, 1, count, 10**6, int(chance.integers(1, 9)), 9))
    often = {edge.edge_id: 1 for edge in edges}
    supply = network.Supply(stops, edges, often, "", {stop: stop - 1 for stop in stops})
    customers = chance.integers(0, 50, (count, count)).astype(float)
    numpy.fill_diagonal(customers, 0)
    minutes, before = supply.minutes()
    flow: dict[tuple[int, int], float] = {}
    for a in range(count):
        for b in range(count):
            here = b
            while here != a:
                two = int(before[a][here]), here
                flow[two] = flow.get(two, 0) + customers[a][b]
                here = two[0]
    found = network.loads(supply, customers, before)
    wanted = max(flow.values())
    assert abs(max(found.values()) - wanted) < 1e-6
    assert minutes.shape == (count, count)
