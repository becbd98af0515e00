"""`lintim-convert in` after `out` is the identity on what is not lossy: network, demand, pool, loads,
concept, periodic times, trips, schedule and delays, and so on all that `lintim make` makes of it."""

import shutil
import tempfile
from pathlib import Path
from typing import Any

import pytest
from hypothesis import given, settings
from hypothesis import strategies as some

import second_reader
from conftest import Folders
from lintim_companion import dataset, formats, generators, program
from lintim_companion.cells import MILLION, File
from lintim_companion.exchange.giving import given as files_given
from lintim_companion.exchange.source import Notes
from lintim_companion.files import write_all
from lintim_form import renumbered
from test_convert import convert, files_of

pytestmark = pytest.mark.usefixtures("lintim")
HAND = (formats.STOPS, formats.EDGES, formats.POOL, formats.DEMAND)
LATE = (formats.EVENT_DELAYS, formats.ACTIVITY_DELAYS)
NOT_CARRIED = ("last_stage", "load_source", "pin_concept", "pin_timetable", "pin_vehicles")
MADE = tuple(
    file
    for file in formats.FILES
    if file.stage and not file.name.endswith(".cert") and file != formats.REASONS
)


def there_and_back(folder: Path, place: Path) -> tuple[Path, Path]:
    """The folder of LinTim of a dataset, and the dataset of that; what is read is not changed."""
    there, back = place / "there", place / "back"
    before = files_of(folder)
    assert convert("out", folder, there).status == 0
    assert files_of(folder) == before
    before = files_of(there)
    ended = convert("in", there, back)
    assert (ended.status, ended.err) == (0, []), ended.err
    assert files_of(there) == before
    return there, back


def same(folder: Path, back: Path) -> None:
    """Sees that what people write says the same in both, and that the same is made of it."""
    one, other = dataset.read(folder), dataset.read(back)
    for file in HAND:
        if file in one:
            assert one[file].rows == other[file].rows
    is_same = {key: one.settings._asdict()[key] for key in one.settings._asdict()}
    for key in NOT_CARRIED:
        is_same[key] = getattr(other.settings, key)
    assert other.settings._asdict() == is_same
    program.run(back, "make")
    for file in MADE:
        if (folder / file.name).exists():
            assert (back / file.name).read_bytes() == (folder / file.name).read_bytes(), file.name
    for late in LATE:
        if late in one and (folder / formats.TRIPS.name).exists():
            assert rows_of(one, late) == rows_of(other, late)


def rows_of(data: dataset.Dataset, file: File[Any]) -> set[object]:
    """The rows of a file, in no order."""
    return set(data.get(file).rows)


@pytest.mark.parametrize(
    "name", ["three-stops", "market-town", *(f"demo {size}" for size in range(1, 5))]
)
def test_examples_and_demos(name: str, example: Folders, tmp_path: Path) -> None:
    folder = example(name)
    assert program.run(folder, "make").status == 0
    there, back = there_and_back(folder, tmp_path)
    same(folder, back)
    verdict = convert("judge", there)
    assert verdict.status == 0 and "not kept" not in verdict.out[-1]


@pytest.mark.long
@pytest.mark.parametrize("size", [5, 6, 7, 8])
def test_large_demos(size: int, example: Folders, tmp_path: Path) -> None:
    folder = example(f"demo {size}")
    assert program.run(folder, "make").status == 0
    there, back = there_and_back(folder, tmp_path)
    same(folder, back)
    assert convert("judge", there).out[-1].startswith("judge: kept: concept, timetable, vehicle")


def test_before_anything_is_made(example: Folders, tmp_path: Path) -> None:
    folder = example("market-town")
    there, back = there_and_back(folder, tmp_path)
    assert not (there / "timetabling").exists() and not (back / "pinned").exists()
    same(folder, back)
    stages = ", ".join(formats.STAGES)
    told = convert("out", folder, tmp_path / "again").out
    assert f"lost or weaker: left out, since lintim status does not say `kept`: {stages}" in told


@pytest.mark.parametrize("spoiled", ["timetabling/Timetable-periodic.tim", "basis/Stop.giv"])
def test_what_is_not_up_to_date_is_left_out(spoiled: str, example: Folders, tmp_path: Path) -> None:
    folder = example("market-town")
    program.run(folder, "make")
    with open(folder / spoiled, "a") as file:
        file.write("# another text\n")
    files = files_given(folder, Notes())
    assert formats.TIMETABLE.name not in files
    assert (formats.CONCEPT.name in files) == (spoiled != "basis/Stop.giv")


SETTINGS = {
    "period_length": some.sampled_from([20, 30, 60]),
    "load_spread": some.integers(1, 9),
    "gen_passengers_per_vehicle": some.integers(20, 200),
    "lpool_costs_fixed": some.integers(0, 20 * MILLION),
    "lpool_costs_length": some.integers(0, 3 * MILLION),
    "lpool_costs_edges": some.integers(0, 3 * MILLION),
    "ean_default_maximal_waiting_time": some.integers(1, 6),
    "ean_headway": some.sampled_from([0, 0, 0, 2]),
    "DM_earliest_time": some.integers(0, 300),
    "DM_latest_time": some.integers(300, 420),
    "vs_turn_over_time": some.integers(0, 9),
    "vs_vehicle_costs": some.integers(1, 100 * MILLION),
    "dm_wait": some.sampled_from([0, 3, "all", "none"]),
    "concept_budget": some.just(500),
    "timetable_budget": some.just(2_000),
}


def a_city(folder: Path, kind: str, stops: int, seed: int, values: dict[str, int | str]) -> None:
    """Writes the dataset of a number, with delays of its first events once it is made."""
    network = generators.KINDS[kind](stops, seed)
    lines = generators.lines_of(network, 3, seed)
    demand = generators.gravity(network, 40 * stops, seed)
    generators.write(folder, network, lines, demand, values)
    program.run(folder, "make")
    if (folder / formats.TRIPS.name).exists():
        events = [formats.EventDelay(event, 3 + event) for event in (1, 2)]
        dataset.write(folder, formats.EVENT_DELAYS, events)
        program.run(folder, "make")


def rounds(kind: str, stops: int, seed: int, values: dict[str, int | str]) -> None:
    with tempfile.TemporaryDirectory() as place:
        folder = Path(place) / "city"
        a_city(folder, kind, stops, seed, values)
        there, back = there_and_back(folder, Path(place))
        same(folder, back)
        see_other_numbers(there, back, seed)
        if (there / formats.TIMETABLE.name).exists():
            period = int(values["period_length"])
            assert second_reader.is_concept_kept(there)
            assert second_reader.is_timetable_kept(there, period)
            slack = second_reader.weighted_slack(there, period)
            other = there.parent / "other"
            program.run(other, "make")
            assert second_reader.slack_here(there, other, period) == pytest.approx(slack)
        shutil.rmtree(folder)


def see_other_numbers(there: Path, back: Path, seed: int) -> None:
    """Sees that numbers of events and the order of rows say nothing."""
    renumbered(seed)(there)
    other = there.parent / "other"
    ended = convert("in", there, other)
    assert (ended.status, ended.err) == (0, []), ended.err
    for path in back.rglob("*"):
        name = path.relative_to(back)
        is_hand = str(name).startswith(("basis", "pinned")) or "delays" in name.name
        if path.is_file() and is_hand and name.name != "Pool-Cost.giv":
            assert (other / name).read_bytes() == path.read_bytes(), name


cities = given(
    kind=some.sampled_from(sorted(generators.KINDS)),
    stops=some.integers(4, 12),
    seed=some.integers(0, 10**6),
    values=some.fixed_dictionaries(SETTINGS),
)


@settings(max_examples=10)
@cities
def test_made_cities(kind: str, stops: int, seed: int, values: dict[str, int | str]) -> None:
    rounds(kind, stops, seed, values)


@pytest.mark.long
@settings(max_examples=150)
@cities
def test_many_made_cities(kind: str, stops: int, seed: int, values: dict[str, int | str]) -> None:
    rounds(kind, stops, seed, values)


def test_what_out_writes_has_the_form_of_lintim(example: Folders, tmp_path: Path) -> None:
    folder = example("market-town")
    program.run(folder, "make")
    texts = files_given(folder, Notes())
    write_all(tmp_path / "there", texts)
    config = texts["basis/Config.cnf"].decode().splitlines()
    assert config[1] == 'include; "../../Global-Config.cnf"'
    assert "DM_earliest_time; 25200" in config and "time_units_per_minute; 1" in config
    head = texts["timetabling/Events-periodic.giv"].decode().splitlines()[0]
    assert head == (
        "# event-id; type; stop-id; line-id; passengers; line-direction; line-freq-repetition"
    )
    rows = texts["vehicle-scheduling/Vehicle_Schedules.vs"].decode().splitlines()[1:]
    assert {row.split("; ")[-1] for row in rows if "EMPTY" in row} == {"-1"}
    trips = texts["delay-management/Trips.giv"].decode().splitlines()[1:]
    assert all(int(row.split("; ")[3]) % 60 == 0 for row in trips)
    assert second_reader.weighted_slack(tmp_path / "there", 30) > 0
