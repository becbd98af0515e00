"""Feeds that are made to take all memory or all time are refused with a reason, or taken within 1 GB
and a minute."""

import subprocess
import zipfile
from collections.abc import Iterable
from itertools import chain
from pathlib import Path
from typing import NamedTuple

import pytest

from commands import BIN, PYTHON
from gtfs_cases import run
from lintim_companion.gtfs.feed import Feed
from lintim_companion.gtfs.stations import Stations
from made_city import ON
from made_feeds import plain

MEGABYTE = 1_000_000
CALLS = b"trip_id,arrival_time,departure_time,stop_id,stop_sequence\r\n"
STOPS = b"stop_id,stop_name,stop_lat,stop_lon,parent_station\r\n"
Parts = dict[str, Iterable[bytes]]
MEASURE = """
import resource, subprocess, sys
status = subprocess.run(sys.argv[1:], stderr=subprocess.STDOUT).returncode
print(status, resource.getrusage(resource.RUSAGE_CHILDREN).ru_maxrss, file=sys.stderr)
"""


def packed(path: Path, parts: Parts, kind: int = zipfile.ZIP_DEFLATED) -> Path:
    """A feed with nothing odd in it but these files."""
    files: Parts = {name: [data] for name, data in plain().items()}
    with zipfile.ZipFile(path, "w", kind, compresslevel=1) as feed:
        for name, texts in {**files, **parts}.items():
            with feed.open(name, "w", force_zip64=True) as file:
                for text in texts:
                    file.write(text)
    return path


class End(NamedTuple):
    """How a command ended: its lines, and the bytes of memory that it took at most."""

    lines: list[str]
    memory: int


def end(*words: object) -> End:
    """Runs `lintim-gtfs`, by a small process which is told the memory of that alone."""
    said = [*PYTHON, "-c", MEASURE, *PYTHON, str(BIN / "lintim-gtfs"), *map(str, words)]
    ended = subprocess.run(said, capture_output=True, text=True)
    status, memory = map(int, ended.stderr.splitlines()[-1].split())
    lines = ended.stdout.splitlines()
    assert status in (0, 1) and lines and "Traceback" not in ended.stdout, ended
    assert max(map(len, lines)) < 10_000
    return End(lines, memory * 1024)


def ends(feed: Path, *more: str) -> tuple[End, End]:
    """How check and import of a feed end."""
    out = feed.with_suffix("")
    return end("check", feed, *more), end("import", feed, out, "--date", ON, *more)


def refused(feed: Path, says: str) -> None:
    """Sees that a feed is refused for a reason, before it takes memory."""
    for it in ends(feed):
        assert any(says in line for line in it.lines), it
        assert it.memory < 100 * MEGABYTE


ENDLESS = {
    "commas": (b"", b"," * 1000),
    "cells of two lines": (b"", b'"a\n",' * 200),
    "one cell": (b"", b"x" * 1000),
    "a quoted cell": (b'a,"', b"x\n" * 500),
}
endless = pytest.mark.parametrize("name", ENDLESS)


@endless
def test_what_unpacks_to_far_more_is_refused(name: str, tmp_path: Path) -> None:
    first, more = ENDLESS[name]
    feed = packed(tmp_path / "feed.zip", {"stop_times.txt": [first, *[more] * 100_000]})
    assert feed.stat().st_size < 3 * MEGABYTE
    refused(feed, "more than 100 to 1")


@endless
def test_a_row_without_end_is_refused(name: str, tmp_path: Path) -> None:
    first, more = ENDLESS[name]
    parts: Parts = {"stop_times.txt": [CALLS, first, *[more] * 20_000]}
    feed = packed(tmp_path / "feed.zip", parts, zipfile.ZIP_STORED)
    refused(feed, "a row has more than 1048576 characters")


def test_a_packed_size_that_is_a_lie_is_no_help(tmp_path: Path) -> None:
    feed = packed(tmp_path / "feed.zip", {"stop_times.txt": [b"," * MEGABYTE] * 50})
    with zipfile.ZipFile(feed) as there:
        size = there.getinfo("stop_times.txt").compress_size
    data = feed.read_bytes()
    lie = (1 << 31).to_bytes(4, "little")
    assert data.count(size.to_bytes(4, "little")) >= 1
    feed.write_bytes(data.replace(size.to_bytes(4, "little"), lie))
    assert all(it.memory < 100 * MEGABYTE for it in ends(feed))


@pytest.mark.parametrize("is_ring", [False, True])
def test_a_chain_of_stations_takes_a_step_for_each(is_ring: bool, tmp_path: Path) -> None:
    count = 60_000
    last = b"S0" if is_ring else b""
    rows = [b"S%d,stop %d,53,10,S%d\r\n" % (it, it, it + 1) for it in range(count)]
    parts: Parts = {"stops.txt": [STOPS, *rows, b"S%d,end,53,10,%s\r\n" % (count, last)]}
    feed = packed(tmp_path / "feed.zip", parts)
    stations = Stations(Feed(feed))
    assert len(stations.all) == (count + 1 if is_ring else 1)
    for it in ends(feed):
        assert "it takes more than" not in it.lines[-1] and it.memory < 150 * MEGABYTE


def test_a_boarding_area_belongs_to_the_station_of_its_platform(tmp_path: Path) -> None:
    rows = (
        b"a,area,53,10,p\r\np,platform,53,10,s\r\ns,station,53,10,\r\nx,x,50,9,y\r\ny,y,51,9,x\r\n"
    )
    rows += b"z,z,52,9,x\r\n"
    stations = Stations(Feed(packed(tmp_path / "feed.zip", {"stops.txt": [STOPS, rows]})))
    groups = [it.stops for it in stations.all]
    assert groups == [("a", "p", "s"), ("x",), ("y",), ("z",)]


def test_a_zone_that_is_nearly_one_is_told_at_once(tmp_path: Path) -> None:
    text = b"agency_id,agency_name,agency_url,agency_timezone\r\nA,a,http://a.de,A%s!\r\n"
    feed = packed(tmp_path / "feed.zip", {"agency.txt": [text % (b"+" * 5000)]})
    lines = run("check", feed)[1]
    assert any("wanted a time zone" in line and len(line) < 5200 for line in lines)


def test_memory_has_a_bound(tmp_path: Path) -> None:
    rows = [b"%d,x,y,%d,-1\r\n" % (it, it) for it in range(150_000)]
    feed = packed(tmp_path / "feed.zip", {"stop_times.txt": [CALLS, *rows]})
    found = end("check", feed, "--memory", "100")
    assert found.lines[-1] == (
        "lintim-gtfs: it takes more than 100 MB of memory, and --memory allows more"
    )
    assert found.memory < 100 * MEGABYTE


def test_time_has_a_bound(tmp_path: Path) -> None:
    """What takes minutes: each of many times that the feed does not tell is looked for."""
    times = [b"T,,,S%d,%d\r\n" % (it % 2, it) for it in range(1, 200_000)]
    first, last = b"T,07:00:00,07:00:00,S0,0\r\n", b"T,17:00:00,17:00:00,S1,900000\r\n"
    parts: Parts = {
        "stops.txt": [STOPS, b"S0,a,53,10,\r\nS1,b,53.01,10,\r\n"],
        "trips.txt": [b"route_id,service_id,trip_id\r\n10,week,T\r\n"],
        "stop_times.txt": [CALLS, first, *times, last],
    }
    feed, out = packed(tmp_path / "feed.zip", parts), tmp_path / "out"
    found = end("import", feed, out, "--date", ON, "--seconds", "2")
    says = "lintim-gtfs: it takes more than 2 seconds, and --seconds allows more"
    assert found.lines == [says] and not out.exists()


@pytest.mark.long
def test_600_mib_of_good_rows_take_1_gb_or_are_refused(tmp_path: Path) -> None:
    """Whether they are taken in a minute depends on the machine; memory does not."""
    count = 530_000
    rows = (
        b"".join(
            b"T%d,%02d:%02d:00,%02d:%02d:00,%s,%d\r\n"
            % (trip, 5 + at // 4, trip % 60, 5 + at // 4, trip % 60, b"abcde"[at % 5 :][:1], at)
            for at in range(40)
        )
        for trip in range(count)
    )
    trips = (b"10,week,T%d\r\n" % trip for trip in range(count))
    head = b"route_id,service_id,trip_id\r\n"
    parts: Parts = {"trips.txt": chain([head], trips), "stop_times.txt": chain([CALLS], rows)}
    feed = packed(tmp_path / "feed.zip", parts)
    with zipfile.ZipFile(feed) as there:
        assert there.getinfo("stop_times.txt").file_size > 600 << 20
    for it in ends(feed):
        assert it.memory < 1000 * MEGABYTE
        assert "it takes more than" in it.lines[-1] or it.lines[-1].startswith("gtfs: "), it
