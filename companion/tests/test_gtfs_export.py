"""What `lintim-gtfs export` writes: journeys over the feed alone are those of `lintim`, the feed
keeps the rules of the reference, and import gives the dataset back."""

import csv
import io
import os
import random
import zipfile
from pathlib import Path

import pytest

from commands import run as run_command
from conftest import Folders
from feed_search import Timetable
from gtfs_cases import DATASETS, PLACE, TOWN, journey, late_day, make, ran, run
from lintim_companion import dataset, formats
from made_city import clock

pytestmark = pytest.mark.usefixtures("lintim")
QUICK = ("market-town", "three-stops", "town", "loops", "seed 47")
AFTER_MIDNIGHT: dict[str, int | str] = {"DM_earliest_time": 1380, "DM_latest_time": 1500}


def table(feed: Path, name: str) -> list[dict[str, str]]:
    """The rows of a file of a feed."""
    with zipfile.ZipFile(feed) as archive:
        return list(csv.DictReader(io.StringIO(archive.read(name).decode())))


def differing(folder: Path, times: str, count: int, feed: Path) -> list[object]:
    """The questions among so many, about stops and minutes by chance, to which the feed alone gives
    another answer than `lintim`."""
    words = ["--disposed"] if times == "disposed" else []
    ran("export", folder, feed, "--place", PLACE, *words)
    timetable = Timetable(feed)
    chance = random.Random(f"{folder} {times}".rpartition("/")[2])
    first, last = timetable.connections[0].departure, timetable.connections[-1].departure
    found: list[object] = []
    for _ in range(count):
        start, end = chance.sample(timetable.stops, 2)
        begin = chance.randint(max(0, first - 10), last)
        ours = timetable.earliest(start, end, begin)
        theirs = journey(folder, start, end, begin, times)
        if ours != theirs:
            found.append((start, end, begin, ours, theirs))
    return found


@pytest.mark.parametrize("name", QUICK)
def test_journeys_over_the_feed_alone(name: str, tmp_path: Path) -> None:
    folder = late_day(tmp_path / name.replace(" ", ""), name)
    for times in ("planned", "disposed"):
        assert differing(folder, times, 40, tmp_path / "feed.zip") == []


@pytest.mark.long
@pytest.mark.parametrize("name", DATASETS)
def test_500_journeys_over_each_of_ten_feeds(name: str, tmp_path: Path) -> None:
    folder = late_day(tmp_path / name.replace(" ", ""), name)
    for times in ("planned", "disposed"):
        assert differing(folder, times, 250, tmp_path / "feed.zip") == []


@pytest.mark.parametrize(
    "name", ["market-town", "three-stops", "town", "loops", "demo 5", "seed 13"]
)
def test_export_then_import_gives_network_lines_and_times(name: str, tmp_path: Path) -> None:
    folder, back = late_day(tmp_path / "there", name), tmp_path / "back"
    (folder / formats.EVENT_DELAYS.name).unlink()
    make(folder)
    before = dataset.read(folder)
    period = before.settings.period_length
    feed = tmp_path / "feed.zip"
    ran("export", folder, feed, "--place", PLACE)
    said = ran("import", feed, back, "--date", "20260105", "--period", period)
    make(back)
    after = dataset.read(back)
    lines = len({row.line for row in before[formats.TRIPS]})
    assert f"{lines} of {lines} lines are periodic and as in the feed" in "\n".join(said)
    assert driven_network(before) == driven_network(after)
    assert ways(before) == ways(after)
    assert times_of(before) == times_of(after)


def times_of(data: dataset.Dataset) -> list[list[tuple[int | str, ...]]]:
    """The lines, stops and minutes of all trips and of all events, without their numbers."""
    trips: list[tuple[int | str, ...]] = [
        (it.line, it.start_stop, it.start_time, it.end_stop, it.end_time)
        for it in data[formats.TRIPS]
    ]
    events: list[tuple[int | str, ...]] = [
        (it.type, it.stop_id, it.time) for it in data[formats.DAY_EVENTS]
    ]
    return [sorted(trips), sorted(events, key=str)]


def driven_network(data: dataset.Dataset) -> tuple[set[int], set[tuple[int, int, int]]]:
    """The stops at which trips call, and the two stops and the length of each driven edge."""
    driven = {row.edge_id for row in data[formats.CONCEPT] if row.frequency}
    edges = {
        (min(it.left_stop, it.right_stop), max(it.left_stop, it.right_stop), it.length)
        for it in data[formats.EDGES]
        if it.edge_id in driven
    }
    return {event.stop_id for event in data[formats.DAY_EVENTS]}, edges


def ways(data: dataset.Dataset) -> dict[int, list[tuple[int, int]]]:
    """The edges of each driven line, by their two stops, and its frequency."""
    ends = {it.edge_id: (it.left_stop, it.right_stop) for it in data[formats.EDGES]}
    found: dict[int, list[tuple[int, int]]] = {}
    for row in data[formats.CONCEPT]:
        if row.frequency:
            two = sorted(ends[row.edge_id])
            found.setdefault(row.line_id, [(row.frequency, 0)]).append((two[0], two[1]))
    return found


def test_the_same_bytes_each_time(tmp_path: Path) -> None:
    folder = late_day(tmp_path / "town", "town")
    for words in ((), ("--disposed",)):
        texts = []
        for name in ("one.zip", "two.zip"):
            ran("export", folder, tmp_path / name, *words)
            texts.append((tmp_path / name).read_bytes())
        assert texts[0] == texts[1]


def test_a_feed_has_the_times_the_vehicles_and_the_directions(tmp_path: Path) -> None:
    folder = late_day(tmp_path / "town", "town")
    feed = tmp_path / "feed.zip"
    ran("export", folder, feed, "--date", "2026-02-03", "--route-type", 0)
    data = dataset.read(folder)
    trips = table(feed, "trips.txt")
    assert len(trips) == len(data[formats.TRIPS]) and {it["direction_id"] for it in trips} == {
        "0",
        "1",
    }
    by_start = {row.start_id: row.vehicle for row in data[formats.SCHEDULE] if row.type == "TRIP"}
    blocks = [str(by_start[trip.start_id]) for trip in data[formats.TRIPS]]
    assert [it["block_id"] for it in trips] == blocks
    assert [it["date"] for it in table(feed, "calendar_dates.txt")] == ["20260203"]
    assert {it["route_type"] for it in table(feed, "routes.txt")} == {"0"}
    names = {str(it.stop_id): it.long_name for it in data[formats.STOPS]}
    assert {it["stop_id"]: it["stop_name"] for it in table(feed, "stops.txt")} == names
    calls = table(feed, "stop_times.txt")
    minutes = [clock(60 * it.time) for it in data[formats.DAY_EVENTS]]
    ends = {trip.end_id for trip in data[formats.TRIPS]}
    starts = {trip.start_id for trip in data[formats.TRIPS]}
    told = [text for it in calls for text in (it["arrival_time"], it["departure_time"])]
    wanted = [
        text
        for event, text in zip(data[formats.DAY_EVENTS], minutes)
        for text in [text] * (2 if event.event_id in starts | ends else 1)
    ]
    assert told == wanted


def test_times_after_midnight(tmp_path: Path) -> None:
    folder = late_day(tmp_path / "town", "town")
    dataset.write_settings(folder, AFTER_MIDNIGHT)
    (folder / formats.EVENT_DELAYS.name).unlink()
    make(folder)
    feed, back = tmp_path / "feed.zip", tmp_path / "back"
    ran("export", folder, feed)
    hours = {it["arrival_time"][:2] for it in table(feed, "stop_times.txt")}
    assert {"23", "24", "25"} <= hours
    ran("import", feed, back, "--date", "20260105")
    make(back)
    file = formats.TRIPS.name
    assert (folder / file).read_bytes() == (back / file).read_bytes()


def test_without_a_schedule_there_are_no_blocks(tmp_path: Path) -> None:
    folder, feed = late_day(tmp_path / "town", "town"), tmp_path / "feed.zip"
    dataset.write_settings(folder, {"last_stage": "rollout"})
    make(folder)
    assert "gtfs: without blocks, since stage vehicles is not up to date" in ran(
        "export", folder, feed
    )
    assert {it["block_id"] for it in table(feed, "trips.txt")} == {""}
    assert "stage disposition is off" in run("export", folder, feed, "--disposed")[2]


def test_coordinates_that_are_no_degrees(tmp_path: Path) -> None:
    feed = tmp_path / "feed.zip"
    for name, why in (
        ("market-town", "edge 2 of length 3 would have stops 334 km apart"),
        ("three-stops", "all stops have the same coordinates"),
    ):
        folder = late_day(tmp_path / name, name)
        status, _, fault = run("export", folder, feed)
        assert status == 1 and why in fault and "--place LAT,LON" in fault
        assert not feed.exists()
    stops = list(dataset.read(folder)[formats.STOPS])
    dataset.write(folder, formats.STOPS, [it._replace(x_coordinate="here") for it in stops])
    make(folder)
    assert "stop 1: x 'here', y '0' are no degrees" in run("export", folder, feed)[2]
    assert (
        "put it out of all degrees"
        in run("export", folder, feed, "--place", "89,179", "--scale", "9000000")[2]
    )


def test_places_and_scale(tmp_path: Path) -> None:
    folder, feed = late_day(tmp_path / "town", "market-town"), tmp_path / "feed.zip"
    ran("export", folder, feed, "--place", "0,0", "--scale", "111195.08")
    stops = {it["stop_id"]: it for it in table(feed, "stops.txt")}
    assert (stops["5"]["stop_lat"], stops["5"]["stop_lon"]) == ("5.000000", "2.000000")
    ran("export", folder, feed, "--place=-33.9,-70.6")
    area, back = "--area=-33.91,-70.61,-33.88,-70.5", tmp_path / "back"
    assert "5 stops of 5" in ran("import", feed, back, "--date", "20260105", area)[0]


def test_faults_are_one_line(tmp_path: Path, example: Folders) -> None:
    town = late_day(tmp_path / "town", "town")
    feed = tmp_path / "feed.zip"
    assert "run lintim make first" in run("export", example("three-stops"), feed)[2]
    for words in (
        ("export", town),
        ("export", town, feed, "--area", "1,2,3,4"),
        ("export", town, feed, "--date", "tomorrow"),
        ("export", town, feed, "--place", "north"),
        ("export", town, feed, "--scale", "5"),
        ("import", feed, tmp_path / "new"),
        ("import", feed, tmp_path / "new", "--date", "20260105", "--from", "7"),
        ("import", feed, tmp_path / "new", "--date", "20260105", "--from", "9:00", "--to", "8:00"),
        ("import", feed, tmp_path / "new", "--date", "20260105", "--area", "5,5,4,4"),
        ("send", feed),
    ):
        if "7" not in words:
            status, lines, fault = run(*words)
            assert status == 2 and not lines and "see lintim-gtfs --help" in fault
    blocked = tmp_path / "file"
    blocked.touch()
    assert "cannot be written" in run("export", town, blocked / "feed.zip")[2]
    os.mkfifo(tmp_path / "pipe")
    (tmp_path / "new").mkdir()
    for place in (tmp_path / "pipe", tmp_path / "new"):
        assert "cannot be written: it is no regular file" in run("export", town, place)[2]
    assert (tmp_path / "pipe").is_fifo()
    (tmp_path / "way").symlink_to(tmp_path / "new")
    assert "gtfs: written to" in ran("export", town, tmp_path / "way/feed.zip")[-1]
    assert "is not empty" in (
        ran("export", town, feed) and run("import", feed, town, "--date", "20260105")[2]
    )


def test_the_command_itself(tmp_path: Path) -> None:
    folder = late_day(tmp_path / "town", "town")
    for words in (
        ("export", folder, tmp_path / "feed.zip"),
        ("check", tmp_path / "feed.zip"),
        ("import", tmp_path / "feed.zip", tmp_path / "back", "--date", "20260105"),
    ):
        ended = run_command("lintim-gtfs", *words)
        assert (ended.status, ended.err) == (0, [])
    missing = run_command("lintim-gtfs", "check", tmp_path / "none.zip")
    assert missing.status == 1 and missing.one_line().endswith("none.zip: no such file")
    assert TOWN.is_dir() and not (TOWN / "import").exists()
