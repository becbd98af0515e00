"""`lintim-gtfs check` finds each fault that is put into a good feed, and none in what is good."""

from collections.abc import Callable
from pathlib import Path
from typing import Any

import pytest

import large_city
import made_feeds
from gtfs_cases import run
from made_city import City, write
from made_feeds import FEEDS

GOOD = sorted(set(FEEDS) - {"other_bytes", "in_a_folder", "without_places", "single_calls"})


@pytest.mark.parametrize("name", GOOD)
def test_a_good_feed_has_no_error(name: str, tmp_path: Path) -> None:
    status, lines, fault = run("check", write(tmp_path / "feed.zip", FEEDS[name]()))
    assert (status, fault) == (0, "") and ": 0 errors, " in lines[-1].replace("gtfs", "")


def test_50_000_stop_times_are_checked(tmp_path: Path) -> None:
    files = large_city.large()
    assert files["stop_times.txt"].count(b"\r\n") == 50_001
    status, lines, _ = run("check", write(tmp_path / "feed.zip", files))
    assert status == 0 and lines[-1].startswith("gtfs: 0 errors, 1 warnings")


def set_cell(file: str, row: int, **cells: Any) -> Callable[[City], None]:
    """Changes cells of a row."""

    def change(city: City) -> None:
        city.rows[f"{file}.txt"][row].update(cells)

    return change


def add_row(file: str, **cells: Any) -> Callable[[City], None]:
    """Adds a row."""
    return lambda city: city.add(file, **cells)


def without(file: str, *fields: str) -> Callable[[City], None]:
    """Takes a file away, or fields of it."""

    def change(city: City) -> None:
        if not fields:
            del city.rows[f"{file}.txt"]
        for field in fields:
            for row in city.rows[f"{file}.txt"]:
                del row[field]

    return change


WINDOW = {
    "start_pickup_drop_off_window": "06:00:00",
    "end_pickup_drop_off_window": "09:00:00",
}
FAULTS: tuple[tuple[Callable[[City], None], str], ...] = (
    (without("stops"), "error: stops.txt: the file is missing"),
    (without("agency"), "error: agency.txt: the file is missing"),
    (without("calendar"), "error: calendar.txt: it is missing, and so is calendar_dates.txt"),
    (without("routes", "route_type"), "error: routes.txt row 1: no field route_type"),
    (set_cell("agency", 0, agency_url="city"), "agency_url is 'city', wanted an address"),
    (set_cell("agency", 0, agency_timezone="Mars/One"), "agency_timezone is 'Mars/One'"),
    (set_cell("agency", 0, agency_name=""), "error: agency.txt row 2: agency_name is empty"),
    (set_cell("stops", 1, stop_lat="95"), "row 3: stop_lat is '95', wanted a latitude"),
    (set_cell("stops", 1, stop_lon="x"), "row 3: stop_lon is 'x', wanted a longitude"),
    (set_cell("stops", 1, stop_name=""), "error: stops.txt row 3: stop_name is empty"),
    (set_cell("stops", 1, stop_id="a"), "error: stops.txt row 3: stop_id: a comes twice"),
    (set_cell("stops", 1, location_type=5), "location_type is '5', wanted 0 to 4"),
    (set_cell("stops", 1, location_type=2), "parent_station is empty at location_type 2"),
    (set_cell("stops", 1, parent_station="zz"), "parent_station 'zz' is not in stops.txt"),
    (set_cell("stops", 1, parent_station="a"), "parent_station 'a' of 'b' is of location_type 0"),
    (set_cell("stops", 0, stop_lat="0", stop_lon="0"), "warning: stops.txt row 2: it lies at 0, 0"),
    (set_cell("routes", 0, route_short_name=""), "row 2: neither route_short_name nor"),
    (set_cell("routes", 0, route_type=9), "route_type is '9', wanted a type of routes"),
    (set_cell("routes", 0, agency_id="B"), "agency_id: 'B' is not in agency.txt"),
    (set_cell("routes", 0, route_color="red"), "route_color is 'red', wanted a colour"),
    (set_cell("trips", 0, route_id="9"), "trips.txt row 2: route_id: '9' is not in routes.txt"),
    (set_cell("trips", 0, service_id="9"), "'9' is not in calendar.txt and calendar_dates.txt"),
    (set_cell("trips", 0, shape_id="9"), "shape_id: '9' is not in shapes.txt"),
    (set_cell("trips", 0, direction_id="2"), "direction_id is '2', wanted 0 to 1"),
    (set_cell("stop_times", 0, stop_id="9"), "stop_times.txt row 2: stop_id: '9' is not in stops"),
    (set_cell("stop_times", 0, trip_id="9"), "stop_times.txt row 2: trip_id: '9' is not in trips"),
    (set_cell("stop_times", 0, stop_sequence="-1"), "stop_sequence is '-1', wanted a whole"),
    (set_cell("stop_times", 1, stop_sequence=1), "trip_id, stop_sequence: 10-0-21600, 1 comes"),
    (set_cell("stop_times", 1, arrival_time="7:61:00"), "arrival_time is '7:61:00', wanted a time"),
    (set_cell("stop_times", 1, arrival_time="05:00:00"), "row 3: arrival_time is before the time"),
    (set_cell("stop_times", 0, arrival_time=""), "row 2: a time is empty at an end of the trip"),
    (
        set_cell("stop_times", 1, arrival_time="", timepoint=1),
        "timepoint is 1, and a time is empty",
    ),
    (set_cell("stop_times", 1, pickup_type=4), "pickup_type is '4', wanted 0 to 3"),
    (set_cell("calendar", 0, monday=2), "monday is '2', wanted 0 to 1"),
    (set_cell("calendar", 0, start_date="20261232"), "start_date is '20261232', wanted a date"),
    (set_cell("calendar", 0, end_date="20200101"), "calendar.txt row 2: end_date is before start"),
    (
        add_row("calendar_dates", service_id="week", date=20260105, exception_type=3),
        "wanted 1 to 2",
    ),
    (
        add_row(
            "frequencies",
            trip_id="10-0-21600",
            start_time="7:00:00",
            end_time="6:00:00",
            headway_secs=60,
        ),
        "end_time is not after start_time",
    ),
    (
        add_row(
            "frequencies",
            trip_id="10-0-21600",
            start_time="6:00:00",
            end_time="7:00:00",
            headway_secs=0,
        ),
        "headway_secs is '0', wanted a whole number from 1",
    ),
    (add_row("transfers", from_stop_id="a", to_stop_id="", transfer_type=2), "to_stop_id is empty"),
    (
        add_row("transfers", from_stop_id="a", to_stop_id="a", transfer_type=2),
        "warning: transfers.txt row 2: transfer_type 2 without min_transfer_time",
    ),
    (add_row("transfers", transfer_type=4), "from_trip_id is empty at transfer_type 4"),
    (
        add_row("shapes", shape_id="s", shape_pt_lat=50, shape_pt_lon=8, shape_pt_sequence=0),
        "shapes.txt row 2: shape 's' has one point",
    ),
    (
        add_row(
            "feed_info", feed_publisher_name="n", feed_publisher_url="http://a.b", feed_lang="e"
        ),
        "feed_lang is 'e', wanted a language code",
    ),
    (
        add_row("trips", route_id="10", service_id="week", trip_id="idle"),
        "trip 'idle' calls nowhere",
    ),
    (
        add_row("agency", agency_name="B", agency_url="http://b", agency_timezone="Asia/Tokyo"),
        "agency.txt row 3: agency_id is empty, and there are several",
    ),
    (add_row("translations", table_name="stops"), "it is missing or empty, and translations.txt"),
    (add_row("attributions", organization_name="O"), "attributions.txt row 2: it is neither"),
    (
        add_row("fare_attributes", fare_id="f", price=-1, currency_type="EUR", payment_method=0),
        "price is '-1', wanted a number from 0",
    ),
    (add_row("fare_rules", fare_id="f"), "fare_id: 'f' is not in fare_attributes.txt"),
    (add_row("levels", level_id="l", level_index="x"), "level_index is 'x', wanted a number"),
    (
        add_row(
            "pathways",
            pathway_id="p",
            from_stop_id="a",
            to_stop_id="b",
            pathway_mode=8,
            is_bidirectional=1,
        ),
        "pathway_mode is '8', wanted 1 to 7",
    ),
    (
        set_cell("routes", 0, route_short_name="1234567890123"),
        "warning: routes.txt row 2: route_short_name has more than 12 letters",
    ),
    (
        set_cell("routes", 0, route_long_name="10"),
        "route_long_name is the same as route_short_name",
    ),
    (set_cell("routes", 1, route_short_name="10"), "row 3: the same names as in row 2"),
    (
        set_cell("routes", 0, route_color="FFFF00", route_text_color="FFFFFF"),
        "warning: routes.txt row 2: route_text_color can hardly be read on route_color",
    ),
    (set_cell("stops", 0, stop_lat="52.0"), "warning: stop_times.txt row 3: "),
    (
        set_cell("stop_times", 1, start_pickup_drop_off_window="06:00:00"),
        "error: stop_times.txt row 3: a window with one end",
    ),
    (set_cell("stop_times", 1, **WINDOW), "stop_times.txt row 3: a time and a window"),
    (set_cell("stop_times", 1, **WINDOW, pickup_type=0), "row 3: pickup_type is that of a regular"),
    (set_cell("stop_times", 1, location_id="x"), "row 3: both stop_id and location_id"),
    (set_cell("stops", 1, stop_access=1), "row 3: stop_access of what is no platform of a station"),
    (set_cell("trips", 0, cars_allowed=3), "cars_allowed is '3', wanted 0 to 2"),
    (
        add_row(
            "pathways",
            pathway_id="p",
            from_stop_id="a",
            to_stop_id="b",
            pathway_mode=7,
            is_bidirectional=1,
        ),
        "pathways.txt row 2: an exit gate that leads both ways",
    ),
    (
        add_row(
            "transfers",
            from_stop_id="a",
            to_stop_id="a",
            from_trip_id="10-0-21600",
            from_route_id="20",
        ),
        "transfers.txt row 2: from_trip_id is no trip of from_route_id",
    ),
    (
        lambda city: city.stop("lonely", 5.0, 5.0),
        "warning: stops.txt row 7: no trip calls at 'lonely'",
    ),
    (add_row("nonsense", a=1), "warning: nonsense.txt: no file of the reference has this name"),
)


@pytest.mark.parametrize("place", range(len(FAULTS)))
def test_each_fault_is_found(place: int, tmp_path: Path) -> None:
    change, says = FAULTS[place]
    city = made_feeds.small()
    change(city)
    status, lines, _ = run("check", write(tmp_path / "feed.zip", city.files()))
    assert any(says in line for line in lines), lines
    assert status == int(any(line.startswith("error: ") for line in lines))


def test_vehicles_on_demand_and_newer_fields_are_no_faults(tmp_path: Path) -> None:
    made = made_feeds.small()
    made.trip("flex", "10", "ab", 7 * 3600)
    for row in made.rows["stop_times.txt"][-2:]:
        row.update(WINDOW, arrival_time="", departure_time="", pickup_type=2, drop_off_type=2)
    made.rows["trips.txt"][0].update(cars_allowed=1)
    made.rows["routes.txt"][0].update(cemv_support=1)
    made.rows["agency.txt"][0].update(cemv_support=2)
    gate = {"pathway_mode": 1, "is_bidirectional": 1, "signposted_as": "Exit"}
    made.add("pathways", pathway_id="p", from_stop_id="a", to_stop_id="b", **gate)
    made.rows["pathways.txt"][0]["reversed_signposted_as"] = "Platforms"
    lines = run("check", write(tmp_path / "feed.zip", made.files()))[1]
    assert lines[-1].startswith("gtfs: 0 errors, 1 warnings"), lines


def test_two_trips_of_a_block_at_one_time(tmp_path: Path) -> None:
    city = made_feeds.small()
    for row in city.rows["trips.txt"][:2]:
        row["block_id"] = "1"
    lines = run("check", write(tmp_path / "feed.zip", city.files()))[1]
    assert "error: trips.txt row 3: block '1' has another trip at that time" in lines


def test_many_findings_of_one_rule_are_cut(tmp_path: Path) -> None:
    city = made_feeds.small()
    for row in city.rows["stop_times.txt"]:
        row["stop_id"] = "9"
    lines = run("check", write(tmp_path / "feed.zip", city.files()))[1]
    lines = [line for line in lines if not line.startswith("warning: ")]
    assert len(lines) == 12 and "98 more: stop_id is not in stops.txt" in lines[10]
    assert lines[-1].startswith("gtfs: 108 errors")


def test_rows_count_as_an_editor_counts_lines(tmp_path: Path) -> None:
    files = made_feeds.plain()
    rows = files["stops.txt"].split(b"\r\n")
    files["stops.txt"] = b"\r\n".join([rows[0], b"", rows[1], rows[2].replace(b"Stop", b"\xff")])
    files["stops.txt"] += b"\r\n" + rows[3].replace(b"50.0", b"5000")
    lines = run("check", write(tmp_path / "feed.zip", files))[1]
    assert any(line.startswith("error: stops.txt row 5: stop_lat is '5000") for line in lines)
    assert "error: stops.txt: it is not UTF-8" in lines
