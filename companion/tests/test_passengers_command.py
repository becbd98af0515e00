"""What `lintim-passengers` writes and says, as a user runs it."""

from pathlib import Path

import pytest

from commands import made, run
from conftest import Folders
from lintim_companion import dataset, formats
from lintim_companion.cells import MILLION

pytestmark = pytest.mark.usefixtures("lintim")
TABLES = "Changes Drives Missed Pairs Stops Trips Values".split()


def value(folder: Path, key: str) -> int:
    rows = dataset.read_file(folder, formats.PASSENGER_VALUES)
    return {row.key: row.value for row in rows}[key]


def test_the_tables_agree(example: Folders) -> None:
    folder = made(example("market-town"))
    for words in ((), ("--disposed", "--capacity", 20), ("--penalty", 10)):
        ended = run("lintim-passengers", folder, *words)
        assert (ended.status, ended.err) == (0, [])
        assert sorted(it.name for it in (folder / "passengers").iterdir()) == [
            f"{name}.csv" for name in TABLES
        ]
        see_tables(folder, 20 if "--capacity" in words else 0)


def see_tables(folder: Path, capacity: int) -> None:
    """Sees that loads are what got on and not off, and that sums agree."""
    stops = dataset.read_file(folder, formats.STOP_USES)
    drives = dataset.read_file(folder, formats.DRIVE_USES)
    for trip in dataset.read_file(folder, formats.TRIP_USES):
        loads = [it.load for it in drives if it.trip == trip.trip]
        here = [it for it in stops if it.trip == trip.trip]
        assert sum(it.boarding - it.alighting for it in here) == 0
        inside = 0
        for place, event in enumerate(here[:-1]):
            inside += event.boarding - event.alighting
            if place % 2 == 0:
                assert loads[place // 2] == inside
        assert trip.greatest_load == max(loads)
        assert trip.boarding == sum(it.boarding for it in here)
        over = max(0, trip.greatest_load - capacity * MILLION)
        assert trip.over_capacity == (over if capacity else 0)
    pairs = dataset.read_file(folder, formats.PAIR_USES)
    without = value(folder, "customers_without_journey")
    assert sum(it.customers for it in pairs) == value(folder, "customers") - without


def test_a_profile_says_when_customers_leave(example: Folders, tmp_path: Path) -> None:
    folder, profile = made(example("market-town")), tmp_path / "profile"
    profile.write_text("# hour; share\n7; 100\n")
    assert run("lintim-passengers", folder, "--profile", profile).status == 0
    both = value(folder, "customers")
    profile.write_text("7; 200\n")
    assert run("lintim-passengers", folder, "--profile", profile).status == 0
    assert abs(value(folder, "customers") - 2 * both) < 100
    for text, why in (("7; x\n", "row 1: column 2 is not a number"), ("7; 1\n7; 2\n", "twice")):
        profile.write_text(text)
        ended = run("lintim-passengers", folder, "--profile", profile)
        assert ended.status == 1 and why in ended.one_line()
    ended = run("lintim-passengers", folder, "--profile", tmp_path / "none")
    assert ended.status == 1 and ended.one_line().endswith("none is missing")


def test_faults_are_one_line(example: Folders, tmp_path: Path) -> None:
    folder = example("market-town")
    ended = run("lintim-passengers", folder)
    assert ended.status == 1 and ended.one_line().endswith("run lintim make first")
    made(folder)
    (folder / "passengers").symlink_to(tmp_path)
    ended = run("lintim-passengers", folder)
    assert ended.status == 1 and "is a link" in ended.one_line()
    assert not [*tmp_path.glob("*.csv")]
    other = made(example("three-stops"))
    ended = run("lintim-passengers", other)
    assert ended.status == 1 and ended.one_line().endswith("basis/OD.giv has no demand")
    for words in (("--capacity", "0"), ("--penalty", "1001")):
        assert run("lintim-passengers", folder, *words).status == 2


def test_a_penalty_trades_minutes_for_changes(example: Folders) -> None:
    folder = made(example("demo 3"))
    found = []
    for penalty in (0, 5, 1000):
        assert run("lintim-passengers", folder, "--penalty", penalty).status == 0
        found.append((value(folder, "changes_mean"), -value(folder, "minutes_mean")))
    assert found == sorted(found, reverse=True)


def test_the_tables_are_none_of_the_dataset() -> None:
    every = [it for it in formats.FILES if it.name.startswith("passengers")]
    assert every == []
