"""SUMO drives the day of exported feeds, and each vehicle leaves its stops when the feed says."""

from pathlib import Path

import pytest

import sumo_day
from conftest import Folders
from gtfs_cases import make, ran

pytestmark = [
    pytest.mark.long,
    pytest.mark.usefixtures("lintim"),
    pytest.mark.skipif(
        not sumo_day.is_there(), reason="apt install sumo sumo-tools python3-pyproj"
    ),
]
STEP = 1  # seconds of the simulation


def seconds(text: str) -> int:
    """A time of the feed as seconds of the day."""
    hours, minutes, rest = map(int, text.split(":"))
    return hours * 3600 + minutes * 60 + rest


@pytest.mark.parametrize("name", ["three-stops", "market-town", "demo 3"])
def test_vehicles_leave_when_the_feed_says(name: str, example: Folders, tmp_path: Path) -> None:
    folder, feed, place = example(name), tmp_path / "feed.zip", tmp_path / "sumo"
    make(folder)
    ran("export", folder, feed, "--place", "49.44,7.77", "--scale", 1000, "--date", sumo_day.DATE)
    place.mkdir()
    found = sumo_day.driven(folder, feed, place)
    wanted: dict[str, list[int]] = {}
    for row in sumo_day.table(feed, "stop_times.txt"):
        wanted.setdefault(row["trip_id"], []).append(seconds(row["departure_time"]))
    assert set(found) == set(wanted)
    for trip, times in wanted.items():
        # Where a vehicle comes in, its road has to be free; and the importer may lay a first stop
        # on no road of the route. All stops after that count.
        later = found[trip][1:]
        assert len(times) - 2 <= len(later) < len(times), (trip, times, found[trip])
        apart = [abs(a - b) for a, b in zip(reversed(later), reversed(times))]
        assert max(apart) <= STEP, (trip, times, found[trip])
