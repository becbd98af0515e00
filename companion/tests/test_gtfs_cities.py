"""Made cities of 300 to 1,400 stations: each trip of the window is in a line, or told with its
reason, and what fits is more than a few stops."""

import csv
import io
import re
import zipfile
from pathlib import Path

import pytest

from gtfs_cases import make, ran, run
from lintim_companion import dataset, formats
from made_city import ON, write
from real_city import city_of
from test_gtfs_import import words_that_fit

pytestmark = pytest.mark.usefixtures("lintim")
CITIES = ((300, 1), (500, 2), (700, 3), (1000, 4), (1400, 5))
TRIPS = re.compile(r"(\d+) (trips [^,;]*)")


def trips_of(feed: Path) -> int:
    """The trips of the feed, all of which run on the date, by a reader of its own."""
    with zipfile.ZipFile(feed) as archive:
        text = archive.read("trips.txt").decode()
    return len(list(csv.DictReader(io.StringIO(text))))


def see_sums(feed: Path, folder: Path, *words: object) -> int:
    """Sees that trips in lines and those with a reason are all; how many are in lines."""
    said = ran("import", feed, folder, "--date", ON, *words)
    with open(folder / "import/ids.csv", newline="", encoding="utf-8") as file:
        driven = {row["gtfs_id"] for row in csv.DictReader(file) if row["kind"] == "trip"}
    left = [line for line in said if line.startswith("gtfs: left out: ") and " trips " in line]
    reasons = sum(int(count) for line in left for count, _ in TRIPS.findall(line))
    assert len(driven) + reasons == trips_of(feed), said
    make(folder)
    assert len(dataset.read(folder)[formats.TRIPS]) > 0
    return len(driven)


def see_city(stations: int, seed: int, tmp_path: Path) -> None:
    """Sees all that is to hold of one city."""
    feed = write(tmp_path / "feed.zip", city_of(stations, seed))
    status, lines, fault = run("import", feed, tmp_path / "no", "--date", ON)
    assert status == 1 and "--fit takes the first" in fault
    rows = words_that_fit(lines)
    assert see_sums(feed, tmp_path / "fit", "--fit") == rows[0][0]
    assert len(dataset.read(tmp_path / "fit")[formats.STOPS]) >= 50
    see_sums(feed, tmp_path / "last", *rows[-1][1])
    assert run("check", feed)[0] == 0


def test_a_city_of_300_stations(tmp_path: Path) -> None:
    see_city(*CITIES[0], tmp_path)


@pytest.mark.long
@pytest.mark.parametrize("stations, seed", CITIES[1:])
def test_larger_cities(stations: int, seed: int, tmp_path: Path) -> None:
    see_city(stations, seed, tmp_path)
