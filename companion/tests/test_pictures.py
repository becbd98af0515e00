"""Pictures of the network and of times turned back into the rows of the files: all are there once,
and none else."""

import html
import math
from collections import Counter
from pathlib import Path
from typing import Any

import pytest

from drawn import Page, Vertex, drawn, minute_at, shapes, traces
from drawn_cases import both, once, town
from lintim_companion import dataset, formats
from lintim_companion.dataset import Dataset
from lintim_companion.pictures.network import BOUNDS, WIDEST

__all__ = ["both", "town"]
for module in ("plotly", "matplotlib", "networkx", "scipy"):
    pytest.importorskip(module)


def stop_places(figure: dict[str, Any]) -> dict[int, tuple[float, float]]:
    (layer,) = traces(figure, "mark", "stop")
    return {at.facts[0]: (at.x, at.y) for (at,) in shapes(layer)}


def aside(edge: formats.Edge, ends: list[Vertex], at: dict[int, tuple[float, float]]) -> float:
    """How far two vertices are beside the stops of an edge, which has to be the same for both."""
    steps = [
        (end.x - at[stop][0], end.y - at[stop][1])
        for end, stop in zip(ends, (edge.left_stop, edge.right_stop))
    ]
    assert math.dist(*steps) < 0.1
    way = ends[1].x - ends[0].x, ends[1].y - ends[0].y
    along = (way[0] * steps[0][0] + way[1] * steps[0][1]) / (math.hypot(*way) or 1)
    assert abs(along) < 0.1
    return math.hypot(*steps[0])


def test_network(both: tuple[Dataset, Page]) -> None:
    """Vertices are stops, strokes are edges, and widths are loads."""
    data, page = both
    (figure,) = page.of("network").values()
    at = stop_places(figure)
    once([*at], data[formats.STOPS].column("stop_id"))
    edges = {edge.edge_id: edge for edge in data[formats.EDGES]}
    alike = Counter(frozenset((it.left_stop, it.right_stop)) for it in edges.values())
    (strokes, *areas) = [it for it in figure["data"] if it["meta"]["kind"] != "mark"]
    for ends in shapes(strokes):
        edge = edges[ends[0].facts[0]]
        count = alike[frozenset((edge.left_stop, edge.right_stop))]
        steps = [abs(place - (count - 1) / 2) * 1.2 * WIDEST for place in range(count)]
        far = aside(edge, ends, at)
        assert min(abs(far - step) for step in steps) < 0.05
    once([ends[0].facts[0] for ends in shapes(strokes)], [*edges])
    top = max(data[formats.LOADS].column("load")) or 1
    widths = {
        corners[0].facts[0]: math.dist(corners[0][:2], corners[3][:2]) / WIDEST * top
        for layer in areas
        for corners in shapes(layer)
    }
    loads = {load.edge_id: load for load in data[formats.LOADS]}
    assert sum(len(shapes(layer)) for layer in areas) == len(loads) == len(widths)
    for id, load in loads.items():
        assert abs(widths[id] - load.load) < top / WIDEST * 0.001
    drives: Counter[int] = Counter()
    for row in data[formats.CONCEPT]:
        drives[row.edge_id] += row.frequency
    for layer in areas:
        for corners in shapes(layer):
            load, often = loads[corners[0].facts[0]], drives[corners[0].facts[0]]
            is_least, is_most = often <= load.minimal_frequency, often >= load.maximal_frequency
            assert layer["fillcolor"] == BOUNDS[0 if is_most else 1 if is_least else 2][1]


def test_line_plan(both: tuple[Dataset, Page]) -> None:
    """Bands are the rows of the concept, side by side; other edges are dashed."""
    data, page = both
    (figure,) = page.of("lines").values()
    edges = {edge.edge_id: edge for edge in data[formats.EDGES]}
    rows = [row for row in data[formats.CONCEPT] if row.frequency]
    told = [at.facts[:4] for layer in traces(figure, "mark", "line") for (at,) in shapes(layer)]
    once(told, [(row.line_id, row.edge_id, row.edge_order, row.frequency) for row in rows])
    at, sides = stop_places(figure), []
    for layer in traces(figure, "area", "line"):
        for corners in shapes(layer):
            line, id = corners[0].facts
            assert layer["meta"]["lines"] == [line] and len(corners) == 4
            aside(edges[id], [corners[0], corners[1]], at)
            sides.append((line, id, corners[0][:2]))
    once([side[:2] for side in sides], [(row.line_id, row.edge_id) for row in rows])
    assert len({side[1:] for side in sides}) == len(sides)
    (bare,) = traces(figure, "stroke", "edge")
    used = {row.edge_id for row in rows}
    ids = [ends[0].facts[0] for ends in shapes(bare) if ends]
    once(ids, [edge for edge in edges if edge not in used])
    assert bare["line"]["dash"] == "dash"


def test_space_time_diagrams(both: tuple[Dataset, Page]) -> None:
    """Vertices are events at their stops, strokes are trips, and crosses are missed changes."""
    data, page = both
    events = {event.event_id: event for event in data[formats.DAY_EVENTS]}
    disposed = dict(data[formats.DISPOSITION].rows)
    trips, crosses = [], []
    late_ids: list[int] = []
    planned_ids: list[int] = []
    for figure in page.of("space-time").values():
        axis = figure["layout"]["yaxis"]
        names = dict(zip(axis["tickvals"], axis["ticktext"]))
        for layer in traces(figure, "stroke", "event"):
            is_late = "planned" in layer["meta"]["facts"]
            for shape in shapes(layer):
                for vertex in shape:
                    event = events[vertex.facts[0]]
                    assert vertex.x == (disposed[event.event_id] if is_late else event.time)
                    assert names[vertex.y] == html.escape(vertex.facts[3], quote=False)
                    assert vertex.facts[2] == event.type
                    assert vertex.facts[3] in name_of(data, event.stop_id)
                    (late_ids if is_late else planned_ids).append(event.event_id)
                if not is_late:
                    ends = shape[0].facts[0], shape[-1].facts[0]
                    trips.append((shape[0].facts[1], *ends, layer["meta"]["lines"][0]))
        for layer in traces(figure, "mark", "change"):
            for (at,) in shapes(layer):
                assert at.x == disposed[at.facts[1]]
                crosses.append(at.facts[:3])
    once(planned_ids, [*events])
    wanted = [
        (id, row.start_id, row.end_id, row.line) for id, row in enumerate(data[formats.TRIPS], 1)
    ]
    once(trips, wanted)
    late = {id for id, time in disposed.items() if time != events[id].time}
    assert late <= set(late_ids) and len(set(late_ids)) == len(late_ids)
    once(crosses, missed(data))
    values = dict(data[formats.STATISTIC].rows)
    assert len(crosses) * 10**6 == values["dm_missed_changes"]


def name_of(data: Dataset, stop: int) -> tuple[str, str]:
    """What a stop may be called in a picture."""
    name = next(it.long_name for it in data[formats.STOPS] if it.stop_id == stop)
    return name, f"{name} ({stop})"


def missed(data: Dataset) -> list[tuple[int, int, int]]:
    """The changes that are missed."""
    disposed = dict(data[formats.DISPOSITION].rows)
    longer = dict(data.get(formats.ACTIVITY_DELAYS).rows)
    return [
        (by.activity_id, by.from_event, by.to_event)
        for by in data[formats.DAY_ACTIVITIES]
        if by.type == "change"
        and disposed[by.to_event]
        < disposed[by.from_event] + by.lower_bound + longer.get(by.activity_id, 0)
    ]


def test_headways_are_told_at_departures(town: Path) -> None:
    data, page = dataset.read(town), drawn(town)
    told = {
        vertex.facts[0]: vertex.facts[5]
        for figure in page.of("space-time").values()
        for layer in traces(figure, "stroke", "event", 6)
        if "disposed" in layer["meta"]["facts"]
        for shape in shapes(layer)
        for vertex in shape
    }
    leaving: dict[tuple[int, int], list[tuple[int, int]]] = {}
    rows = data[formats.DAY_EVENTS].rows
    for event, then in zip(rows, rows[1:]):
        if event.type == "departure":
            key = event.stop_id, then.stop_id
            leaving.setdefault(key, []).append((event.time, event.event_id))
    wanted: dict[int, int | str] = {event.event_id: "" for event in rows}
    for times in leaving.values():
        for (first, _), (second, id) in zip(sorted(times), sorted(times)[1:]):
            wanted[id] = second - first
    assert told == wanted


def test_circles(both: tuple[Dataset, Page]) -> None:
    """Marks are periodic events at their minutes, and chords are changes with their slack."""
    data, page = both
    period = data.settings.period_length
    times = dict(data[formats.TIMETABLE].rows)
    events, chords, slacks = [], [], []
    for key, figure in page.of("period").items():
        for layer in traces(figure, "mark", "event"):
            for (at,) in shapes(layer):
                id, kind, line, direction, run_of, minute = at.facts
                assert minute_at(at.x, at.y, period) == minute == times[id]
                assert layer["meta"]["lines"] == [line]
                events.append((id, kind, int(key.removeprefix("stop-")), line, direction, run_of))
        for layer in traces(figure, "stroke", "change"):
            for first, second in shapes(layer):
                ends = [minute_at(at.x, at.y, period) for at in (first, second)]
                chords.append((first.facts[0], *ends))
        for layer in traces(figure, "mark", "change"):
            slacks += [at.facts for (at,) in shapes(layer)]
    once(events, [tuple(event) for event in data[formats.PERIODIC_EVENTS]])
    changes = [by for by in data[formats.PERIODIC_ACTIVITIES] if by.type == "change"]
    once(chords, [(by.activity_id, times[by.from_event], times[by.to_event]) for by in changes])
    once(
        [it[:3] for it in slacks], [(by.activity_id, by.from_event, by.to_event) for by in changes]
    )
    bounds = {by.activity_id: by for by in changes}
    for id, first_event, second_event, _, _, minutes, slack in slacks:
        assert (minutes - times[second_event] + times[first_event]) % period == 0
        assert 0 <= slack < period and minutes - slack == bounds[id].lower_bound
