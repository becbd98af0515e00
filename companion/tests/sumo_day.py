"""The day of an exported feed, driven by SUMO: its own importer lays the feed on a network of the
edges of the dataset, and the simulation tells when each vehicle leaves each stop.

SUMO: P. Alvarez Lopez and others, Microscopic Traffic Simulation using SUMO, 2018; Debian's packages
`sumo` and `sumo-tools`. Its importer takes the times of one trip for all trips of a route with the
same stops, so a line whose runs differ in their minutes is driven by those of one run.
"""

import csv
import io
import os
import shutil
import subprocess
import xml.etree.ElementTree as xml
import zipfile
from pathlib import Path

from lintim_companion import dataset, formats

HOME = Path("/usr/share/sumo")
IMPORTER = HOME / "tools/import/gtfs/gtfs2pt.py"
DATE = "20260105"  # a Monday
SPEED = "30"  # metres a second on each edge, so that nobody is late
Row = dict[str, str]


def is_there() -> bool:
    """Whether SUMO and its importer are installed."""
    return IMPORTER.is_file() and Path("/usr/bin/sumo").is_file()


def table(feed: Path, name: str) -> list[Row]:
    """The rows of a file of a feed."""
    with zipfile.ZipFile(feed) as archive:
        return list(csv.DictReader(io.StringIO(archive.read(name).decode())))


def called(place: Path, *words: object) -> None:
    """Runs a tool of SUMO in a folder."""
    env = {**os.environ, "SUMO_HOME": str(HOME), "PYTHONDONTWRITEBYTECODE": "1"}
    ended = subprocess.run(
        [*map(str, words)], cwd=place, env=env, capture_output=True, text=True, timeout=500
    )
    assert ended.returncode == 0, ended.stdout[-2000:] + ended.stderr[-2000:]


def write_network(folder: Path, feed: Path, place: Path) -> None:
    """A road in both directions for each edge of a dataset."""
    nodes, edges = xml.Element("nodes"), xml.Element("edges")
    for row in table(feed, "stops.txt"):
        at = {"x": row["stop_lon"], "y": row["stop_lat"], "type": "priority"}
        xml.SubElement(nodes, "node", {"id": f"n{row['stop_id']}", **at})
    for edge in dataset.read(folder)[formats.EDGES]:
        for name, a, b in (
            (f"e{edge.edge_id}", edge.left_stop, edge.right_stop),
            (f"r{edge.edge_id}", edge.right_stop, edge.left_stop),
        ):
            ends = {"from": f"n{a}", "to": f"n{b}", "type": "highway.primary"}
            xml.SubElement(edges, "edge", {"id": name, "numLanes": "2", **ends, "speed": SPEED})
    xml.ElementTree(nodes).write(place / "it.nod.xml")
    xml.ElementTree(edges).write(place / "it.edg.xml")
    called(
        *(place, "netconvert", "--node-files", "it.nod.xml", "--edge-files", "it.edg.xml"),
        *("--type-files", HOME / "data/typemap/osmNetconvert.typ.xml"),
        *("--proj.utm", "--proj.plain-geo", "--no-turnarounds", "false", "-o", "it.net.xml"),
    )


def with_calendar(feed: Path, place: Path) -> Path:
    """The feed with a `calendar.txt` too, which the importer wants; the reference does not where
    `calendar_dates.txt` is there."""
    days = "monday,tuesday,wednesday,thursday,friday,saturday,sunday"
    text = f"service_id,{days},start_date,end_date\r\nday,1,0,0,0,0,0,0,{DATE},{DATE}\r\n"
    new = place / "with_calendar.zip"
    shutil.copy(feed, new)
    with zipfile.ZipFile(new, "a") as archive:
        archive.writestr("calendar.txt", text)
    return new


def driven(folder: Path, feed: Path, place: Path) -> dict[str, list[float]]:
    """When each trip leaves its stops, in seconds of the day, in their order."""
    write_network(folder, feed, place)
    feed = with_calendar(feed, place)
    called(
        *(place, "/usr/bin/python3", IMPORTER, "--gtfs", feed, "--date", DATE),
        *("-n", "it.net.xml", "--modes", "bus", "--region", "it", "--sort", "-b", 0, "-e", 86400),
        *("--duration", 1, "--mapperlib", "tracemapper", "--vtype-output", "vtypes.xml"),
        *("--fill-gaps", 5000, "--bus-stop-length", 60),
    )
    called(
        *(place, "sumo", "-n", "it.net.xml", "-r", "it_pt_vehicles.add.xml", "--step-length", 1),
        *("-a", "vtypes.xml,it_pt_stops.add.xml", "--stop-output", "stops.xml"),
        *("--time-to-teleport", -1, "--no-step-log", "--collision.action", "none"),
        *("--ignore-junction-blocker", 1, "--ignore-route-errors"),
    )
    found: dict[str, list[float]] = {}
    for stop in xml.parse(place / "stops.xml").getroot().iter("stopinfo"):
        found.setdefault(stop.get("id", "").rpartition(".")[0], []).append(
            float(stop.get("ended", ""))
        )
    return {trip: sorted(times) for trip, times in found.items()}
