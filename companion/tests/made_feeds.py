"""Feeds as cities make them, from nothing: each function gives the files of a feed that is odd in
one way. The same function gives the same bytes each time."""

import random
from collections.abc import Callable
from typing import Any

from made_city import HOUR, ON, City, Files, clock


def small(**more: Any) -> City:
    """Two routes that cross, each third of an hour in both directions from 6 to 9 o'clock."""
    city = City()
    for stop, east, north in (
        ("a", 0.0, 0.0),
        ("b", 1.0, 0.0),
        ("c", 2.0, 0.0),
        ("d", 1.0, 1.0),
        ("e", 1.0, -1.0),
    ):
        city.stop(stop, east, north)
    city.weekly("week")
    for route, way in (("10", "abc"), ("20", "dbe")):
        city.route(route)
        city.both_ways(route, way, range(6 * HOUR, 9 * HOUR, 1200), **more)
    return city


def plain() -> Files:
    """Nothing odd."""
    return small().files()


def after_midnight() -> Files:
    """A night line whose trips start before and after midnight."""
    city = small()
    city.route("N1")
    city.both_ways("N1", "abcde", range(23 * HOUR, 26 * HOUR, 1200), drive=600)
    return city.files()


def ring() -> Files:
    """A ring that is driven in one direction."""
    city = small()
    city.route("30")
    for start in range(6 * HOUR, 9 * HOUR, 1200):
        city.trip(f"30-{start}", "30", "adcea", start)
    return city.files()


def lollipop() -> Files:
    """A way out, a loop, and the same way back, in one trip."""
    city = small()
    city.route("40")
    for start in range(6 * HOUR, 9 * HOUR, 1200):
        city.trip(f"40-{start}", "40", "abdceba", start, drive=120)
    return city.files()


def out_and_back() -> Files:
    """A trip that goes out and all the way back."""
    city = small()
    city.route("50")
    for start in range(6 * HOUR, 9 * HOUR, 1200):
        city.trip(f"50-{start}", "50", "adcda", start, drive=240)
    return city.files()


def platforms() -> Files:
    """Stations with two platforms, an entrance and a boarding area."""
    city = City()
    for station, east in (("S1", 0.0), ("S2", 1.5), ("S3", 3.0)):
        city.stop(station, east, 0.0, f"Station {station}", location_type=1)
        for side in "LR":
            more = {"parent_station": station, "platform_code": side, "location_type": 0}
            city.stop(f"{station}{side}", east, 0.01, f"Station {station}", **more)
    city.stop("E1", 0.0, 0.05, "Entrance", location_type=2, parent_station="S1")
    area = {"location_type": 4, "parent_station": "S1L"}
    city.add("stops", stop_id="B1", stop_name="", stop_lat="", stop_lon="", **area)
    city.weekly("week")
    city.route("R", 2)
    for start in range(6 * HOUR, 9 * HOUR, 1800):
        city.trip(f"R-0-{start}", "R", ("S1L", "S2L", "S3L"), start, direction_id=0)
        city.trip(f"R-1-{start}", "R", ("S3R", "S2R", "S1R"), start, direction_id=1)
    return city.files()


def platforms_by_name() -> Files:
    """Both sides of a street under one name, without stations; and far away the same name."""
    city = City()
    for place, name in enumerate(("Church", "Market", "School")):
        for side, north in (("n", 0.02), ("s", -0.02)):
            city.stop(f"{name}-{side}", place * 1.0, north, name)
    city.stop("other", 9.0, 9.0, "Church")
    city.weekly("week")
    city.route("7")
    for start in range(6 * HOUR, 9 * HOUR, 1800):
        there = ("Church-s", "Market-s", "School-s", "other")
        back = ("other", "School-n", "Market-n", "Church-n")
        city.trip(f"7-0-{start}", "7", there, start, direction_id=0)
        city.trip(f"7-1-{start}", "7", back, start, direction_id=1)
    return city.files()


def byte_order_marks() -> Files:
    """Each file with a mark."""
    return {name: b"\xef\xbb\xbf" + data for name, data in small().files().items()}


def few_files() -> Files:
    """No file and no field that may be left out."""
    city = small()
    del city.rows["calendar.txt"]
    city.add("calendar_dates", service_id="week", date=ON, exception_type=1)
    for row in city.rows["trips.txt"]:
        del row["direction_id"]
    for row in city.rows["agency.txt"] + city.rows["routes.txt"]:
        del row["agency_id"]
    return city.files()


def frequencies() -> Files:
    """One trip in each direction, repeated by headways."""
    city = small()
    city.route("60")
    for name, way in (("60-0", "ade"), ("60-1", "eda")):
        city.trip(name, "60", way, 0, direction_id=name[-1])
        for begin, end, headway in ((6, 7, 600), (7, 9, 900)):
            spans = {"start_time": clock(begin * HOUR), "end_time": clock(end * HOUR)}
            city.add("frequencies", trip_id=name, **spans, headway_secs=headway)
    return city.files()


def several_services() -> Files:
    """Services of the week, of Saturdays and Sundays, holidays, and one that is over."""
    city = small()
    city.weekly("sat", "0000010")
    city.weekly("sun", "0000001")
    city.weekly("old", "1111111", start_date="20240101", end_date="20241231")
    for service, at in (("sat", 10), ("sun", 11), ("old", 12)):
        for start in range(at * HOUR, at * HOUR + 7200, 1800):
            city.trip(f"{service}-{start}", "10", "abc", start, service=service)
    city.add("calendar_dates", service_id="week", date="20260106", exception_type=2)
    city.add("calendar_dates", service_id="sun", date="20260106", exception_type=1)
    return city.files()


def quoted_names() -> Files:
    """Commas, quotes, semicolons, number signs and other alphabets in names."""
    names = ("High Street, North", 'The "Crown"', "Gate; 7 #2", "Süd/東", " Mill  Lane ")
    city = small()
    for row, name in zip(city.rows["stops.txt"], names):
        row["stop_name"] = name
    city.rows["routes.txt"][0]["route_long_name"] = "a, b, and c"
    return city.files()


def other_bytes() -> Files:
    """Names as Latin-1, and lines that end with line feeds alone."""
    city = small()
    city.rows["stops.txt"][0]["stop_name"] = "Südtor"
    files = {name: data.replace(b"\r\n", b"\n") for name, data in city.files().items()}
    files["stops.txt"] = files["stops.txt"].decode().encode("latin-1")
    return files


def odd_tables() -> Files:
    """Fields in another order, fields and files of others, blanks, empty lines."""
    city = small()
    for row in city.rows["stop_times.txt"]:
        row["x_note"] = "n"
    for name, rows in city.rows.items():
        city.rows[name] = [dict(reversed(row.items())) for row in rows]
    files = {name: data + b"\r\n\r\n" for name, data in city.files().items()}
    files["stops.txt"] = files["stops.txt"].replace(b",Stop", b", Stop")
    return files | {"x_vendor.txt": b"a,b\r\n1,2\r\n", "readme.md": b"# hello\n"}


def in_a_folder() -> Files:
    """All files in a folder of the zip file."""
    return {f"feed/{name}": data for name, data in small().files().items()}


def untold_times() -> Files:
    """Times at the ends of trips alone."""
    city = small()
    for row in city.rows["stop_times.txt"]:
        if row["stop_sequence"] == 2:
            row["arrival_time"] = row["departure_time"] = ""
    return city.files()


def seconds() -> Files:
    """Times with seconds, and drives of less than half a minute."""
    return small(drive=(25, 205), stand=20).files()


def short_turns() -> Files:
    """A route with trips over a part of it, and with branches."""
    city = small()
    for start in range(6 * HOUR + 600, 9 * HOUR, 3600):
        city.trip(f"short-{start}", "10", "ab", start, direction_id=0)
        city.trip(f"branch-{start}", "10", "abd", start, direction_id=0)
    return city.files()


def irregular() -> Files:
    """Trips at any minutes, and one route that is driven once a day."""
    chance = random.Random(7)
    city = small()
    city.route("70")
    for number in range(25):
        way = "aceda" if number % 2 else "adeca"
        start = 60 * chance.randrange(360, 540)
        city.trip(f"70-{number}", "70", way, start, drive=60 * chance.randint(2, 6))
    city.route("80")
    city.trip("80", "80", "ae", 7 * HOUR)
    return city.files()


def extended_types() -> Files:
    """A tram, buses and a metro, by basic and extended types."""
    city = small()
    for route, kind, way in (("T", 900, "ade"), ("U", 1, "aec"), ("X", 704, "cd")):
        city.route(route, kind)
        city.both_ways(route, way, range(6 * HOUR, 9 * HOUR, 1800))
    return city.files()


def shapes(factor: float | None) -> Files:
    """Ways along two streets, with distances of so many units for a kilometre, or without any."""
    city = City()
    for place, stop in enumerate("abc"):
        city.stop(stop, 2.0 * place, 0.0)
    city.weekly("week")
    city.route("1")
    points = [(0.0, 0.0), (1.0, 0.5), (2.0, 0.0), (3.0, -0.5), (4.0, 0.0)]
    for shape, way in (("there", points), ("back", points[::-1])):
        for place, (east, north) in enumerate(way):
            at = {
                "shape_pt_lat": f"{50 + north / 111.2:.6f}",
                "shape_pt_lon": f"{8 + east / 71.5:.6f}",
            }
            city.add("shapes", shape_id=shape, **at, shape_pt_sequence=place)
    for start in range(6 * HOUR, 9 * HOUR, 1800):
        city.trip(f"0-{start}", "1", "abc", start, direction_id=0, shape_id="there")
        city.trip(f"1-{start}", "1", "cba", start, direction_id=1, shape_id="back")
    if factor is not None:
        for row in city.rows["stop_times.txt"]:
            walked = factor * 2.236 * (row["stop_sequence"] - 1)
            row["shape_dist_traveled"] = f"{walked:.3f}"
    return city.files()


def without_places() -> Files:
    """Stops of which some have no place."""
    city = small()
    for row in city.rows["stops.txt"][:2]:
        row["stop_lat"] = row["stop_lon"] = ""
    return city.files()


def single_calls() -> Files:
    """Trips that call once, trips that call nowhere, and trips whose rows have faults."""
    city = small()
    city.trip("once", "10", "a", 7 * HOUR)
    city.trip("nowhere", "10", "", 7 * HOUR)
    city.trip("unknown", "10", ("a", "zz"), 7 * HOUR)
    city.trip("backward", "10", "abc", 7 * HOUR, drive=-60)
    return city.files()


FEEDS: dict[str, Callable[[], Files]] = {
    it.__name__: it
    for it in (
        plain,
        after_midnight,
        ring,
        lollipop,
        out_and_back,
        platforms,
        platforms_by_name,
        byte_order_marks,
        few_files,
        frequencies,
        several_services,
        quoted_names,
        other_bytes,
        odd_tables,
        in_a_folder,
        untold_times,
        seconds,
        short_turns,
        irregular,
        extended_types,
        without_places,
        single_calls,
    )
} | {
    "shapes": lambda: shapes(None),
    "shapes_in_metres": lambda: shapes(1000.0),
    "shapes_in_miles": lambda: shapes(0.621371),
    "shapes_in_other_units": lambda: shapes(17.0),
}
