"""Ways of a route become lines, and two ways that nearly mirror each other are one."""

from collections import Counter
from pathlib import Path

import pytest
from hypothesis import given, settings
from hypothesis import strategies as some

from gtfs_cases import make, ran
from lintim_companion import dataset, formats
from lintim_companion.gtfs.lines import Line, Part, Run, lines_of
from lintim_companion.gtfs.rides import Call, Ride, Route
from lintim_companion.gtfs.ways import common, matched_ways
from made_city import HOUR, ON, City, write
from made_feeds import small

Way = tuple[int, ...]
ways = some.lists(some.integers(0, 6), min_size=2, max_size=9).map(
    lambda row: tuple(it for at, it in enumerate(row) if at == 0 or it != row[at - 1])
)
ways = ways.filter(lambda way: len(way) > 1)


@some.composite
def routes(draw: some.DrawFn) -> list[Ride]:
    """Trips of one route: some ways, others that nearly mirror them, and any minutes."""
    found = draw(some.lists(ways, min_size=1, max_size=4))
    for way in found[: draw(some.integers(0, len(found)))]:
        back = [*way[::-1]]
        for _ in range(draw(some.integers(0, 2))):
            back.insert(draw(some.integers(0, len(back))), draw(some.integers(7, 9)))
        found.append(tuple(it for at, it in enumerate(back) if at == 0 or it != back[at - 1]))
    rides = []
    for number in range(draw(some.integers(1, 30))):
        way = draw(some.sampled_from(found))
        now, calls = draw(some.integers(0, 1500)), []
        for station in way:
            now += draw(some.integers(1, 9))
            stand = draw(some.integers(0, 3))
            calls.append(Call(station, now, now + stand, None, None))
            now += stand
        first = calls[0].departure
        calls[0] = calls[0]._replace(arrival=first)
        direction = draw(some.sampled_from(("", "0", "1")))
        rides.append(Ride(f"t{number}", "R", direction, "", tuple(calls), number))
    return rides


def times_of(run: Run, way: Way) -> list[tuple[int, int, int]]:
    """The stations of a run with arrival and departure in minutes of the day."""
    times = [run.start, run.start, *(run.start + it for it in run.offsets)]
    times.append(times[-1])
    return [(station, times[2 * at], times[2 * at + 1]) for at, station in enumerate(way)]


def see_run(run: Run, way: Way, rides: dict[str, Ride]) -> None:
    """Sees that a run calls at a row of the stations of its trip, at the minutes of the trip."""
    calls = iter(rides[run.trip].calls)
    last = len(way) - 1
    for place, (station, arrival, departure) in enumerate(times_of(run, way)):
        assert any(
            call.station == station
            and (place == 0 or call.arrival == arrival)
            and (place == last or call.departure == departure)
            for call in calls
        ), (run, way, rides[run.trip])


def see_line(line: Line, rides: dict[str, Ride]) -> None:
    """Sees that a line is one, and that its runs are those of the trips."""
    assert len(line.way) > 1 and all(a != b for a, b in zip(line.way, line.way[1:]))
    assert len(set(line.edges)) == len(line.edges)
    for runs, way in ((line.forward, line.way), (line.backward, line.way[::-1])):
        for run in runs:
            see_run(run, way, rides)


@given(routes(), some.sampled_from((0.01, 0.05, 0.2, 1.0)))
@settings(max_examples=300, deadline=None)
def test_minutes_from_station_to_station_stay_the_same(rides: list[Ride], share: float) -> None:
    left = Counter[str]()
    parts = [Part(ride, ride.calls) for ride in rides]
    lines, taken = lines_of(parts, {"R": Route(3, 3, "R", 0)}, left, share)
    by_trip = {ride.trip: ride for ride in rides}
    for line in lines:
        see_line(line, by_trip)
    driven = {run.trip for line in lines for run in (*line.forward, *line.backward)}
    by_others = sum(count for says, count in left.items() if says.startswith("trips by ways"))
    assert len(driven) + by_others == len(rides) == len(taken)
    counts = Counter(ride.trip in driven for ride in rides)
    if share <= 0.01:
        assert counts[True] == len(rides)
    dropped = sum(len(ride.calls) for ride in rides) - sum(len(part.calls) for part in taken)
    assert dropped == left["calls at stops that one direction alone passes"]


@given(ways, ways)
def test_a_common_row_stands_in_both_ways(there: Way, back: Way) -> None:
    places = common(there, back)
    rows = [tuple(way[at] for at in of) for way, of in zip((there, back), places)]
    assert rows[0] == rows[1][::-1] and len(rows[0]) != 1
    assert all([*of] == sorted(set(of)) for of in places)
    assert len(common(there, there[::-1])[0]) == len(there)


def test_many_trips_with_a_partner_come_before_one_exact_mirror() -> None:
    there, back, rare = (1, 2, 3, 4, 5), (5, 4, 9, 3, 2, 1), (5, 4, 3, 2, 1)
    found = matched_ways(Counter({there: 50, rare: 1, back: 49}), 0.05)
    assert [(it.there, it.back, it.row) for it in found] == [(there, back, there)]


def test_forty_ways_of_a_route() -> None:
    counts = Counter({(*range(at + 2),): 1 for at in range(40)})
    assert len(matched_ways(counts, 0.05)) == 1
    assert len(matched_ways(counts, 0.02)) == 40


@pytest.mark.usefixtures("lintim")
def test_a_stop_in_a_one_way_street(tmp_path: Path) -> None:
    city = City()
    city.weekly("week")
    for place, stop in enumerate("abcdx"):
        city.stop(stop, place * 1.0, 0.0)
    city.route("10")
    for start in range(6 * HOUR, 9 * HOUR, 1200):
        city.trip(f"0-{start}", "10", "abxcd", start, direction_id=0)
        city.trip(f"1-{start}", "10", "dcba", start + 300, direction_id=1)
    folder = tmp_path / "city"
    said = "\n".join(
        ran("import", write(tmp_path / "feed.zip", city.files()), folder, "--date", ON)
    )
    assert "1 lines with 18 trips" in said and "1 of 1 lines are periodic" in said
    assert "9 calls at stops that one direction alone passes" in said
    assert "1 stations at which no such trip calls" in said
    make(folder)
    data = dataset.read(folder)
    middle = next(it for it in data[formats.EDGES] if {it.left_stop, it.right_stop} == {2, 3})
    assert (middle.lower_bound, middle.upper_bound) == (3, 7)
    assert len(data[formats.TRIPS]) == 18


@pytest.mark.usefixtures("lintim")
def test_branches_are_lines_by_their_share(tmp_path: Path) -> None:
    city = small()
    for start in range(6 * HOUR, 9 * HOUR, 2400):
        city.both_ways("10", "abd", [start + 60])
    feed = write(tmp_path / "feed.zip", city.files())
    said = "\n".join(ran("import", feed, tmp_path / "all", "--date", ON))
    assert "3 lines with 46 trips" in said
    said = "\n".join(ran("import", feed, tmp_path / "few", "--date", ON, "--share", 50))
    assert "left out: 10 trips by ways with less than 50 % of their route" in said
