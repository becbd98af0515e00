"""Journeys of the customers are those of `lintim journey`, planned and disposed."""

import random
from pathlib import Path

import pytest

from gtfs_cases import DATASETS, journey, late_day
from lintim_companion import dataset, formats
from lintim_companion.passengers.net import Day, Net, Ways, asked, disposed_times, ways_to


def both_ways(folder: Path) -> dict[str, Ways]:
    """The best ways of a late day to all of its stops, by planned and by disposed times."""
    data = dataset.read(folder)
    day = Day(data)
    stops = [it.stop_id for it in data[formats.STOPS]]
    times = {"planned": day.planned, "disposed": disposed_times(data)}
    return {name: ways_to(Net(day, at), stops) for name, at in times.items()}


def questions(folder: Path, name: str, count: int) -> int:
    """Asks so many questions of both; gives how many have a journey."""
    chance, found = random.Random(name), 0
    ways = both_ways(folder)
    stops = ways["planned"].stops
    planned = ways["planned"].net.times
    minutes = int(planned.min()) - 5, int(planned.max())
    for _ in range(count):
        begin, times = max(0, chance.randint(*minutes)), chance.choice(("planned", "disposed"))
        start, end = chance.sample(range(len(stops)), 2)
        net = ways[times].net
        events = asked(ways[times], stops[start], end, begin)
        arrival = int(net.times[events[-1]]) if events else None
        assert arrival == journey(folder, stops[start], stops[end], begin, times)
        if events:
            found += 1
            see_journey(ways[times], events, begin, stops[start], stops[end])
    return found


def see_journey(ways: Ways, events: list[int], begin: int, start: int, end: int) -> None:
    """Sees that events are a journey, by activities that can be used."""
    net, day = ways.net, ways.net.day
    assert not day.is_arrival[events[0]] and day.is_arrival[events[-1]]
    assert (day.stops[events[0]], day.stops[events[-1]]) == (start, end)
    assert net.times[events[0]] >= begin
    for first, second in zip(events, events[1:]):
        by = (day.tails == first) & (day.heads == second)
        assert (by & (net.times[first] + day.lower <= net.times[second])).any()


@pytest.mark.parametrize("name", ["market-town", "three-stops", "loops", "seed 47"])
def test_journeys_are_those_of_lintim(name: str, tmp_path: Path, lintim: str) -> None:
    assert questions(late_day(tmp_path / "day", name), name, 40) > 0


@pytest.mark.long
@pytest.mark.parametrize("name", DATASETS)
def test_1000_journeys_of_each_of_ten_datasets(name: str, tmp_path: Path, lintim: str) -> None:
    assert questions(late_day(tmp_path / "day", name), name, 1000) > 10
