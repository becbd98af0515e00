"""Feeds that are odd: stations without platforms, very many ways, frequencies alone, and shapes that
do not fit."""

from pathlib import Path

import pytest

from gtfs_cases import make, ran
from lintim_companion import dataset, formats
from made_city import HOUR, ON, City, clock, write
from made_feeds import shapes, small

pytestmark = pytest.mark.usefixtures("lintim")


def taken(city: City, tmp_path: Path, *words: object) -> tuple[dataset.Dataset, str]:
    """The dataset of a city, which `lintim make` plans, and what the import said."""
    feed = write(tmp_path / "feed.zip", city.files())
    said = "\n".join(ran("import", feed, tmp_path / "city", "--date", ON, *words))
    make(tmp_path / "city")
    return dataset.read(tmp_path / "city"), said


def test_trips_may_call_at_stations_without_platforms(tmp_path: Path) -> None:
    city = small()
    for row in city.rows["stops.txt"]:
        row["location_type"] = 1
    data, said = taken(city, tmp_path)
    assert len(data[formats.STOPS]) == 5 and "2 lines with 36 trips" in said


def test_a_route_with_forty_ways(tmp_path: Path) -> None:
    city = City()
    city.weekly("week")
    for stop in range(45):
        city.stop(str(stop), stop * 0.5, 0.0)
    city.route("1")
    for number in range(40):
        way = [str(it) for it in range(number % 20, number // 2 + 25)]
        city.both_ways("1", way, [6 * HOUR + 60 * number])
    data, said = taken(city, tmp_path, "--share", 2)
    assert "40 lines with 80 trips" in said and len(data[formats.TRIPS]) >= 80
    (tmp_path / "less").mkdir()
    _, said = taken(city, tmp_path / "less")
    assert "trips by ways with less than 5 % of their route" in said


def test_a_feed_of_frequencies_alone(tmp_path: Path) -> None:
    city = small()
    for name in ("trips.txt", "stop_times.txt"):
        del city.rows[name]
    for name, way in (("there", "abc"), ("back", "cba")):
        city.trip(name, "10", way, 0, direction_id=int(name == "back"))
        span = {"start_time": clock(6 * HOUR), "end_time": clock(10 * HOUR)}
        city.add("frequencies", trip_id=name, **span, headway_secs=600)
    data, said = taken(city, tmp_path)
    assert "1 of 1 lines are periodic and as in the feed" in said
    assert len(data[formats.TRIPS]) == 48


def test_shapes_that_do_not_fit_are_passed_over(tmp_path: Path) -> None:
    files = shapes(None)
    rows = files["shapes.txt"].decode().splitlines()
    far = [row.replace(",50.", ",10.").replace(",49.", ",10.") for row in rows]
    feed = write(tmp_path / "feed.zip", files | {"shapes.txt": "\r\n".join(far).encode()})
    ran("import", feed, tmp_path / "city", "--date", ON)
    lengths = [edge.length / 10**6 for edge in dataset.read(tmp_path / "city")[formats.EDGES]]
    assert all(abs(length - 2.0) < 0.01 for length in lengths)
