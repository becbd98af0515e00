"""Pictures of vehicles, delays and numbers, and files for paper, turned back into rows."""

from pathlib import Path
from typing import Any

import pytest

from commands import run
from drawn import Page, Sheet, shapes, traces
from drawn_cases import both, once, town
from lintim_companion import dataset, formats
from lintim_companion.dataset import Dataset

__all__ = ["both", "town"]
for module in ("plotly", "matplotlib", "networkx", "scipy"):
    pytest.importorskip(module)


def test_vehicles(both: tuple[Dataset, Page]) -> None:
    """Bars are trips, and low strokes empty rides."""
    data, page = both
    if not data[formats.SCHEDULE]:
        assert "no vehicle is out" in page.why_left_out()["vehicles"]
        return
    figure = page.of("vehicles")["vehicles"]
    axis = figure["layout"]["yaxis"]
    rows_at = dict(zip(axis["tickvals"], axis["ticktext"]))
    bars: list[tuple[Any, ...]] = []
    for layer in figure["data"]:
        if layer["type"] == "bar":
            for base, (at,) in zip(layer["base"], shapes(layer)):
                vehicle, number, kind, line, first, last = at.facts[:6]
                assert rows_at[at.y] == f"vehicle {vehicle}" and layer["meta"]["lines"] == [line]
                assert kind == "trip"
                bars.append((vehicle, number, "TRIP", first, base, last, base + at.x, line))
    for layer in traces(figure, "stroke", "vehicle", 10):
        for first_end, second_end in shapes(layer):
            vehicle, number, _, _, first, last = first_end.facts[:6]
            assert rows_at[first_end.y] == f"vehicle {vehicle}"
            bars.append((vehicle, number, "EMPTY", first, first_end.x, last, second_end.x, 0))
    rows = data[formats.SCHEDULE].rows
    wanted = [
        (it.circulation, it.number, it.type, it.start_id, it.start_time)
        + (it.end_id, it.end_time, it.line)
        for it in rows
    ]
    once(bars, wanted)


def test_turnarounds_and_hours(both: tuple[Dataset, Page]) -> None:
    """Thin strokes are the times before a next trip, and each hour has the vehicles that are out."""
    data, page = both
    if not data[formats.SCHEDULE]:
        return
    figure, hours = page.of("vehicles").values()
    rows = data[formats.SCHEDULE].rows
    turns = [
        (first.facts, first.x, second.x)
        for layer in traces(figure, "stroke", "vehicle", 2)
        for first, second in shapes(layer)
    ]
    empty = [
        ((it.circulation, it.number), it.end_time, then.start_time)
        for it, then in zip(rows, rows[1:])
        if it.type == "EMPTY"
    ]
    once(turns, empty)
    (counts,) = traces(hours, "mark", "hour")
    for (at,) in shapes(counts):
        begin, end = 60 * at.facts[0], 60 * at.facts[0] + 60
        out = {
            it.circulation
            for it in rows
            if it.start_time < end and max(it.end_time, it.start_time + 1) > begin
        }
        assert at.facts[1] == len(out)


def test_delays(both: tuple[Dataset, Page]) -> None:
    """Marks are late events, stars rows of delays, and strokes reasons."""
    data, page = both
    events = {event.event_id: event for event in data[formats.DAY_EVENTS]}
    disposed = dict(data[formats.DISPOSITION].rows)
    late = {id for id, time in disposed.items() if time != events[id].time}
    sources = [("event", *row) for row in data.get(formats.EVENT_DELAYS)]
    sources += [("activity", *row) for row in data.get(formats.ACTIVITY_DELAYS)]
    if not late and not sources:
        assert "nothing is late" in page.why_left_out()["delays"]
        return
    (figure,) = page.of("delays").values()
    marks = [at for layer in traces(figure, "mark", "event") for (at,) in shapes(layer)]
    once([(at.facts[0], at.x) for at in marks], [(id, disposed[id]) for id in late])
    assert all(at.facts[6] == disposed[at.facts[0]] - events[at.facts[0]].time for at in marks)
    stars = [at for layer in traces(figure, "mark", "id") for (at,) in shapes(layer)]
    once([(at.facts[1], at.facts[0], at.facts[2]) for at in stars], sources)
    activities = {by.activity_id: by.from_event for by in data[formats.DAY_ACTIVITIES]}
    turns = {row.end_id: row.start_id for row in data[formats.SCHEDULE] if row.type == "EMPTY"}
    ways, wanted = [], []
    for layer in traces(figure, "stroke", "event"):
        for first, second in shapes(layer):
            event, activity, before = first.facts
            assert (first.x, second.x) == (disposed[before], disposed[event])
            ways.append((event, activity, before))
    for event, reason, activity in data[formats.REASONS]:
        if event in late and reason != "source":
            before = activities[activity] if reason == "activity" else turns[event]
            wanted.append((event, activity, before))
    once(ways, wanted)
    table = page.table("delays")[1:]
    assert sum(int(row[2]) for row in table) == len(late)
    values = dict(data[formats.STATISTIC].rows)
    assert sum(int(row[4]) for row in table) * 10**6 == values["dm_total_delay"]


def test_numbers(both: tuple[Dataset, Page]) -> None:
    data, page = both
    told = {row[0]: row[1] for row in page.table("numbers")[1:]}
    lines = (data.folder / formats.STATISTIC.name).read_text().splitlines()[1:]
    assert told == dict(line.split("; ") for line in lines)
    assert all(row[2] for row in page.table("numbers"))


@pytest.fixture(scope="module")
def on_paper(town: Path) -> Path:
    """A folder with the pictures of the town."""
    folder = town.parent / "svg"
    ended = run("lintim-view", town, "--out", folder / "page.html", "--svg", folder)
    assert (ended.status, ended.err) == (0, [])
    return folder


@pytest.mark.parametrize("name", ["space-time-line-1", "space-time-line-5", "vehicles"])
def test_svg_turned_back(name: str, town: Path, on_paper: Path) -> None:
    """Shapes of an SVG, by their ids, in minutes and rows of the axes."""
    data, sheet = dataset.read(town), Sheet((on_paper / f"{name}.svg").read_bytes())
    names = {stop.stop_id: stop.long_name for stop in data[formats.STOPS]}
    events = {event.event_id: event for event in data[formats.DAY_EVENTS]}
    if name == "vehicles":
        for row in data[formats.SCHEDULE]:
            corners = sheet.vertices(f"vehicle-{row.circulation}-{row.number}")
            minutes = {sheet.minute(x) for x, _ in corners}
            assert minutes == {row.start_time, row.end_time}
            middle = (min(y for _, y in corners) + max(y for _, y in corners)) / 2
            assert sheet.row(middle) == f"vehicle {row.circulation}"
        return
    for id, trip in enumerate(data[formats.TRIPS], 1):
        if name.endswith(f"-{trip.line}"):
            found = [(sheet.minute(x), sheet.row(y)) for x, y in sheet.vertices(f"trip-{id}")]
            on = [events[event] for event in range(trip.start_id, trip.end_id + 1)]
            assert found == [(event.time, names[event.stop_id]) for event in on]
