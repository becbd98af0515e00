"""Feeds as cities make them become datasets that `lintim make` plans, or are refused with a
reason."""

import csv
from collections import Counter
from pathlib import Path

import pytest
from hypothesis import given, settings
from hypothesis import strategies as some

import large_city
import made_feeds
from gtfs_cases import make, ran, run
from lintim_companion import dataset, files, formats
from lintim_companion.faults import Refused
from lintim_companion.gtfs.importing import IDS
from made_city import ON, City, Files, clock, write
from made_feeds import FEEDS

pytestmark = pytest.mark.usefixtures("lintim")


def imported(files: Files, folder: Path, *words: object) -> tuple[dataset.Dataset, str]:
    """The dataset of a feed, all of whose stages are made, and what the command said."""
    feed = write(folder.with_suffix(".zip"), files)
    said = "\n".join(ran("import", feed, folder, "--date", ON, *words))
    make(folder)
    return dataset.read(folder), said


def ids(folder: Path, kind: str) -> list[tuple[int, str]]:
    """The ids of a kind and those of the feed to which they lead back."""
    with open(folder / "import/ids.csv", newline="", encoding="utf-8") as file:
        rows = list(csv.DictReader(file))
    return [(int(row["id"]), row["gtfs_id"]) for row in rows if row["kind"] == kind]


@pytest.mark.parametrize("name", FEEDS)
def test_each_feed_becomes_a_dataset(name: str, tmp_path: Path) -> None:
    data, said = imported(FEEDS[name](), tmp_path / "city")
    assert len(data[formats.TRIPS]) > 0 and "timetable: " in said
    assert len(ids(data.folder, "stop")) >= len(data[formats.STOPS])
    assert {line for line, _ in ids(data.folder, "line")} == {
        row.line_id for row in data[formats.POOL]
    }


def starts_of(data: dataset.Dataset) -> list[tuple[int, int]]:
    """The starts and the ends of all trips of the day."""
    return sorted((trip.start_time, trip.end_time) for trip in data[formats.TRIPS])


def test_the_day_is_that_of_the_feed(tmp_path: Path) -> None:
    data, said = imported(made_feeds.plain(), tmp_path / "city")
    first = [(at, at + 7) for at in range(360, 540, 20)]
    wanted = sorted(2 * [*first, *((start + 5, end + 5) for start, end in first)])
    assert starts_of(data) == wanted
    assert "2 of 2 lines are periodic and as in the feed" in said
    assert data.settings.period_length == 60 and data.settings.DM_latest_time == 525
    assert [row.frequency for row in data[formats.CONCEPT]] == [3, 3, 3, 3]
    lengths = [edge.length for edge in data[formats.EDGES]]
    assert all(abs(length - 1_000_000) < 3_000 for length in lengths)


@pytest.mark.parametrize(
    "name",
    [
        "byte_order_marks",
        "few_files",
        "several_services",
        "other_bytes",
        "odd_tables",
        "in_a_folder",
        "quoted_names",
        "untold_times",
        "without_places",
        "single_calls",
    ],
)
def test_the_same_day_in_other_clothes(name: str, tmp_path: Path) -> None:
    plain, _ = imported(made_feeds.plain(), tmp_path / "plain")
    data, _ = imported(FEEDS[name](), tmp_path / "city")
    assert starts_of(data) == starts_of(plain)


@some.composite
def periodic_cities(draw: some.DrawFn) -> tuple[int, City]:
    """A period, and lines over any ways that are evenly spread over it, with any minutes."""
    period, periods = draw(some.sampled_from((20, 30, 60))), draw(some.integers(1, 4))
    city = City()
    city.weekly("week")
    for place in range(6):
        city.stop(str(place + 1), place * 1.0, place % 2 * 1.0)
    for route in range(1, draw(some.integers(1, 4)) + 1):
        city.route(str(route))
        way = [str(it) for it in draw(some.permutations(range(1, 7)))]
        way = way[: draw(some.integers(2, 6))]
        often = draw(some.integers(1, 3))
        for direction in (0, 1):
            first = draw(some.integers(0, period - 1))
            drive = [60 * draw(some.integers(1, 9)) for _ in way[1:]]
            stand = 60 * draw(some.integers(0, 3))
            side = way[::-1] if direction else way
            for at in range(often * periods):
                minute = (first + at % often * period // often) % period
                start = 60 * (600 + minute + at // often * period)
                name = f"{route}-{direction}-{at}"
                city.trip(name, str(route), side, start, drive, stand, direction_id=direction)
    return period, city


@settings(max_examples=25)
@given(made=periodic_cities())
def test_periodic_feeds_come_back_to_the_minute(
    made: tuple[int, City], tmp_path_factory: pytest.TempPathFactory
) -> None:
    period, city = made
    folder = tmp_path_factory.mktemp("city") / "back"
    data, said = imported(city.files(), folder, "--period", period)
    wanted = [
        (row["stop_id"], row[f"{kind}_time"])
        for row in city.rows["stop_times.txt"]
        for kind in ("arrival", "departure")
    ]
    counts = Counter(wanted)
    for event in data[formats.DAY_EVENTS]:
        counts[(str(event.stop_id), clock(60 * event.time))] -= 1
    ends = {it for it, count in counts.items() if count}
    assert "lines are periodic and as in the feed" in said and "gtfs: line " not in said
    assert all(count >= 0 for count in counts.values())
    assert sum(counts.values()) == 2 * len(city.rows["trips.txt"]), ends


def test_a_period_that_fits_better_is_told(tmp_path: Path) -> None:
    city = City()
    city.weekly("week")
    for place in range(3):
        city.stop(f"{place}", place * 1.0, 0.0)
    city.route("45")
    city.both_ways("45", "012", range(6 * 3600, 12 * 3600, 45 * 60))
    _, said = imported(city.files(), tmp_path / "one")
    assert "--period 45 would have 1 of 1 lines so" in said
    _, said = imported(city.files(), tmp_path / "two", "--period", 45)
    assert "--period" not in said and "1 of 1 lines are periodic" in said


def test_after_midnight(tmp_path: Path) -> None:
    words = ("--from", "23:00", "--to", "26:00")
    data, said = imported(made_feeds.after_midnight(), tmp_path / "city", *words)
    assert "18 trips; " in said and "36 trips that start out of the window" in said
    assert "1 of 1 lines are periodic" in said
    assert {24 * 60, 25 * 60} <= {trip.start_time for trip in data[formats.TRIPS]}


def test_rings_loops_and_ways_back(tmp_path: Path) -> None:
    ring, said = imported(made_feeds.ring(), tmp_path / "ring")
    assert "(30): it is driven in one direction alone" in said
    assert len([row for row in ring[formats.POOL] if row.line_id == 30]) == 4
    loop, _ = imported(made_feeds.lollipop(), tmp_path / "loop")
    routes = [route for _, route in ids(loop.folder, "line")]
    assert routes == ["10", "20", "40", "40"]
    back, said = imported(made_feeds.out_and_back(), tmp_path / "back")
    assert "3 of 3 lines are periodic" in said
    ways = [row for row in back[formats.POOL] if row.line_id == 50]
    assert len(ways) == 2


def test_stations(tmp_path: Path) -> None:
    data, _ = imported(made_feeds.platforms(), tmp_path / "platforms")
    assert [stop.long_name for stop in data[formats.STOPS]] == [
        f"Station S{number}" for number in (1, 2, 3)
    ]
    assert (1, "B1") in ids(data.folder, "stop") and (3, "S3R") in ids(data.folder, "stop")
    data, _ = imported(made_feeds.platforms_by_name(), tmp_path / "names")
    assert [stop.long_name for stop in data[formats.STOPS]] == [
        "Church",
        "Market",
        "School",
        "Church",
    ]


def test_parents_that_lead_round_in_a_ring(tmp_path: Path) -> None:
    city = made_feeds.small()
    for row, parent in zip(city.rows["stops.txt"], "bcaa"):
        row["parent_station"] = parent
    data, _ = imported(city.files(), tmp_path / "city")
    assert len(data[formats.STOPS]) == 5


def test_names_fit_into_cells(tmp_path: Path) -> None:
    data, _ = imported(made_feeds.quoted_names(), tmp_path / "city")
    assert [stop.long_name for stop in data[formats.STOPS]] == [
        "High Street, North",
        "The 'Crown'",
        "Gate, 7 2",
        "Süd/東",
        "Mill Lane",
    ]


def test_frequencies_are_trips(tmp_path: Path) -> None:
    words = ("--from", "7:00", "--to", "8:59")
    data, said = imported(made_feeds.frequencies(), tmp_path / "city", *words)
    of_line = [trip.start_time for trip in data[formats.TRIPS] if trip.line == 60]
    assert sorted(of_line) == sorted(2 * list(range(420, 540, 15))), said


def test_lengths(tmp_path: Path) -> None:
    for name, length, says in (
        ("shapes", 2.236, "in kilometres from places"),
        ("shapes_in_metres", 2.236, "the feed tells metres"),
        ("shapes_in_miles", 2.236, "the feed tells miles"),
        ("shapes_in_other_units", 38.012, "in the unit of the feed"),
    ):
        data, said = imported(FEEDS[name](), tmp_path / name)
        assert says in said
        for edge in data[formats.EDGES]:
            assert abs(edge.length / 1_000_000 - length) < 0.01 * length, name


def test_least_and_greatest_minutes_as_observed(tmp_path: Path) -> None:
    city = made_feeds.small()
    city.trip("slow", "10", "abc", 7 * 3600 + 600, drive=420, direction_id=0)
    data, said = imported(city.files(), tmp_path / "city")
    bounds = {(edge.lower_bound, edge.upper_bound) for edge in data[formats.EDGES]}
    assert bounds == {(3, 3), (3, 7)} and "(10): its trips do not" in said


def test_what_is_left_out_is_counted(tmp_path: Path) -> None:
    _, said = imported(made_feeds.short_turns(), tmp_path / "turns", "--share", 20)
    assert "left out: 6 trips by ways with less than 20 % of their route" in said
    _, said = imported(made_feeds.extended_types(), tmp_path / "tram", "--route-type", 0)
    assert "1 lines with 12 trips" in said and "60 trips of other types of routes" in said
    _, said = imported(made_feeds.plain(), tmp_path / "area", "--area", "49.995,7.99,50.005,8.1")
    assert "3 stops of 3" in said and "18 trips out of the area" in said
    _, said = imported(made_feeds.single_calls(), tmp_path / "faults")
    assert "2 trips with a fault" in said and "row 112: stop 'zz' is not in stops.txt" in said


def test_refusals_have_a_reason(tmp_path: Path) -> None:
    feed, folder = write(tmp_path / "feed.zip", made_feeds.plain()), tmp_path / "city"
    for words, why in (
        (("--date", "20260104"), "no trip runs on 2026-01-04; most trips, 36, are on --date 2025"),
        (
            ("--date", ON, "--route-type", "1"),
            "no trip of --route-type 1; the feed has the types 3",
        ),
        (("--date", ON, "--from", "12:00"), "36 trips that start out of the window"),
        (("--date", ON, "--area", "0,0,1,1"), "36 trips out of the area"),
    ):
        status, _, fault = run("import", feed, folder, *words)
        assert status == 1 and why in fault and not folder.exists()
    for name in ("stops.txt", "routes.txt", "trips.txt", "stop_times.txt"):
        some_files = made_feeds.plain()
        del some_files[name]
        fault = run("import", write(feed, some_files), folder, "--date", ON)[2]
        assert fault.endswith(f"{name} is missing")
    feed.write_bytes(b"no zip file")
    assert "is no zip file" in run("import", feed, folder, "--date", ON)[2]
    assert run("import", feed, feed, "--date", ON)[2] == f"{feed} is no folder"
    assert run("import", tmp_path, folder, "--date", ON)[2].endswith(
        "cannot be read: Is a directory"
    )


def test_where_not_all_can_be_written_nothing_stays(
    tmp_path: Path, monkeypatch: pytest.MonkeyPatch
) -> None:
    feed, folder = write(tmp_path / "feed.zip", made_feeds.plain()), tmp_path / "city"
    real = files.write_bytes

    def full(place: Path, name: str, data: bytes) -> None:
        if name == IDS:
            (place / "import").mkdir(exist_ok=True)
            raise Refused(f"{name} cannot be written: No space left on device")
        real(place, name, data)

    monkeypatch.setattr(files, "write_bytes", full)
    assert "No space left" in run("import", feed, folder, "--date", ON)[2] and not folder.exists()
    folder.mkdir()
    assert "No space left" in run("import", feed, folder, "--date", ON)[2]
    assert folder.is_dir() and not [*folder.iterdir()]


def words_that_fit(lines: list[str]) -> list[tuple[int, list[str]]]:
    """The trips and the words of each row of the table of what fits."""
    at = next(at for at, line in enumerate(lines) if line.startswith("gtfs: stations  lines"))
    rows = [line.removeprefix("gtfs:").split() for line in lines[at + 1 :]]
    return [(int(row[2]), row[5:]) for row in rows if row[0].isdigit()]


def test_50_000_stop_times_are_refused_with_parts_that_fit(tmp_path: Path) -> None:
    feed = write(tmp_path / "feed.zip", large_city.large())
    status, lines, fault = run("import", feed, tmp_path / "city", "--date", ON)
    assert status == 1 and "periodic events (at most 4000)" in fault
    fits = words_that_fit(lines)
    assert len(fits) > 1 and fits == sorted(fits, key=lambda it: -it[0])
    for place, (trips, words) in enumerate(fits):
        folder = tmp_path / f"part{place}"
        said = "\n".join(ran("import", feed, folder, "--date", ON, *words))
        assert f"lines with {trips} trips; " in said
        make(folder)
    said = "\n".join(ran("import", feed, tmp_path / "fit", "--date", ON, "--fit"))
    assert f"so this is taken: {' '.join(fits[0][1])}" in said
    assert (
        dataset.read(tmp_path / "fit")[formats.POOL]
        == dataset.read(tmp_path / "part0")[formats.POOL]
    )


def test_a_feed_that_is_too_large_in_each_way_is_refused(tmp_path: Path) -> None:
    city = City()
    city.weekly("week")
    for stop in range(1101):
        city.stop(str(stop), stop * 0.4, 0.0)
    for route in range(220):
        city.route(f"r{route}")
        way = [str(5 * route + at) for at in range(6)]
        city.both_ways(f"r{route}", way, [6 * 3600])
    feed = write(tmp_path / "feed.zip", city.files())
    status, lines, fault = run("import", feed, tmp_path / "city", "--date", ON)
    assert status == 1
    for says in ("1101 stops (at most 1000)", "1100 edges (at most 1000)", "220 lines"):
        assert says in fault
    trips, words = words_that_fit(lines)[0]
    assert trips >= 2 * 180
    ran("import", feed, tmp_path / "city", "--date", ON, *words)
    make(tmp_path / "city")


def test_texts_of_another_kind_are_refused_with_their_reason(tmp_path: Path) -> None:
    feed, folder = tmp_path / "feed.zip", tmp_path / "city"
    plain = made_feeds.plain()
    for data, why in (
        (plain["stops.txt"].decode().encode("utf-16"), "stops.txt is UTF-16 or no text"),
        (plain["stops.txt"].replace(b",", b";"), "stops.txt has semicolons between its cells"),
        (plain["stops.txt"].replace(b",", b"\t"), "stops.txt has tabs between its cells"),
    ):
        write(feed, plain | {"stops.txt": data})
        status, _, fault = run("import", feed, folder, "--date", ON)
        assert status == 1 and why in fault
        assert any(why.partition(" ")[2] in line for line in run("check", feed)[1])


def test_rows_with_too_many_cells_are_told(tmp_path: Path) -> None:
    plain = made_feeds.plain()
    rows = plain["stops.txt"].split(b"\r\n")
    rows[2] += b",1"
    _, said = imported(plain | {"stops.txt": b"\r\n".join(rows)}, tmp_path / "city")
    assert "stops.txt: 1 rows with more cells than the header, the first is row 3" in said


def test_stretched_drives_are_not_as_in_the_feed(tmp_path: Path) -> None:
    _, said = imported(made_feeds.seconds(), tmp_path / "city")
    assert (
        "0 of 2 lines are periodic and as in the feed, 2 more but for drives of less than" in said
    )
