"""The network with its loads, and the line plan over it."""

import math
from collections import defaultdict

from ..formats import CONCEPT, EDGES, LOADS, STOPS, ConceptRow, Edge, Load
from ..rows import number_text
from . import style
from .places import Place, stop_places
from .plan import Plan
from .scene import Axis, Facts, Layer, Picture, Section, Shape, Value

WIDEST = 30.0  # the edge of greatest load, in a square of 1,000
MANY = 100  # edges or stops, above which no number or name stands beside them
BOUNDS = (
    ("driven as often as allowed", style.ALARM),
    ("driven as often as needed", style.LINE_COLOURS[1]),
    ("between its bounds", style.LINE_COLOURS[0]),
    ("no line concept", style.QUIET),
)


def network_section(plan: Plan) -> Section:
    """Stops and edges; an edge is as wide as its load, red where it may not be driven more often."""
    section = Section(
        "network",
        "Network",
        "Edges are as wide as their load, the number of customers over them. Red is driven as often"
        " as allowed: no line more fits there. Orange is driven just as often as its load needs.",
    )
    section.left_out = plan.missing(STOPS, EDGES)
    if section.left_out:
        return section
    if why := plan.missing(LOADS):
        section.about += f" Without widths: {why}."
    places, is_given = stop_places(plan)
    if not is_given:
        section.about += " Coordinates say nothing, so distances place the stops."
    ways = edge_ways(plan, places)
    layers = [edge_layer("edges", list(plan.edges.values()), ways)]
    layers += load_layers(plan, ways)
    layers.append(stop_layer(plan, places))
    section.pictures = [plane("network", "Network and loads", layers)]
    return section


def plane(key: str, title: str, layers: list[Layer]) -> Picture:
    """A picture over the network."""
    return Picture(key, title, Axis("plane"), Axis("plane"), layers, 620, is_even=True)


def edge_ways(plan: Plan, places: dict[int, Place]) -> dict[int, tuple[Place, Place]]:
    """The two ends of each edge from left to right, edges between the same stops side by side."""
    beside = defaultdict(list)
    for edge in plan.edges.values():
        for stop in (edge.left_stop, edge.right_stop):
            plan.names[stop]
        beside[frozenset((edge.left_stop, edge.right_stop))].append(edge.edge_id)
    found = {}
    for edge in plan.edges.values():
        group = beside[frozenset((edge.left_stop, edge.right_stop))]
        away = (group.index(edge.edge_id) - (len(group) - 1) / 2) * WIDEST * 1.2
        found[edge.edge_id] = shifted((places[edge.left_stop], places[edge.right_stop]), away)
    return found


def across(way: tuple[Place, Place]) -> Place:
    """One step to the side of a way, which is the same side for both of its directions."""
    (left, low), (right, high) = way
    length = math.hypot(right - left, high - low)
    if not length:
        return 0.0, 1.0
    x, y = (low - high) / length, (right - left) / length
    return (-x, -y) if (y, x) < (0.0, 0.0) else (x, y)


def shifted(way: tuple[Place, Place], away: float) -> tuple[Place, Place]:
    """A way, moved to its side."""
    x, y = across(way)
    a, b = ((round(at[0] + away * x, 2), round(at[1] + away * y, 2)) for at in way)
    return a, b


def band(way: tuple[Place, Place], away: float, width: float) -> tuple[list[float], list[float]]:
    """The four corners of a band beside a way."""
    x, y = across(way)
    corners = [
        (at[0] + side * x, at[1] + side * y)
        for at, side in (
            (way[0], away - width / 2),
            (way[1], away - width / 2),
            (way[1], away + width / 2),
            (way[0], away + width / 2),
        )
    ]
    return [round(x, 4) for x, _ in corners], [round(y, 4) for _, y in corners]


def middle(xs: list[float], ys: list[float]) -> Place:
    """The middle of some places."""
    return round(sum(xs) / len(xs), 2), round(sum(ys) / len(ys), 2)


def edge_layer(name: str, edges: list[Edge], ways: dict[int, tuple[Place, Place]]) -> Layer:
    """The edges as thin strokes, broken where the layer is told in the legend."""
    layer = Layer(name, "stroke", ("edge",), style.QUIET, width=1.5, is_told=False)
    for edge in edges:
        (left, low), (right, high) = ways[edge.edge_id]
        facts = [(edge.edge_id,)] * 2
        layer.shapes.append(Shape(f"edge-{edge.edge_id}", [left, right], [low, high], facts))
    layer.in_legend = False
    return layer


def stop_layer(plan: Plan, places: dict[int, Place]) -> Layer:
    """The stops with their names."""
    layer = Layer("stops", "mark", ("stop", "name"), style.LINE_COLOURS[3])
    layer.width = 11 if len(plan.names) <= MANY else 6
    layer.in_legend = False
    for stop in plan.data[STOPS]:
        x, y = places[stop.stop_id]
        name = plan.names[stop.stop_id]
        label = name if len(plan.names) <= MANY else ""
        shape = Shape(f"stop-{stop.stop_id}", [x], [y], [(stop.stop_id, name)], label)
        layer.shapes.append(shape)
    return layer


def drives_of(plan: Plan) -> dict[int, int]:
    """How often the lines over each edge are driven together."""
    found: dict[int, int] = defaultdict(int)
    for row in plan.data.get(CONCEPT):
        found[row.edge_id] += row.frequency
    return found


def bound_met(load: Load, drives: int, has_concept: bool) -> int:
    """The place in `BOUNDS` of an edge that is driven so often."""
    if not has_concept:
        return 3
    if drives >= load.maximal_frequency:
        return 0
    return 1 if drives <= load.minimal_frequency else 2


def load_layers(plan: Plan, ways: dict[int, tuple[Place, Place]]) -> list[Layer]:
    """Areas as wide as the loads, and a mark in the middle of each edge that tells of it."""
    loads = {row.edge_id: row for row in plan.data.get(LOADS)}
    top = max((load.load for load in loads.values()), default=0) or 1
    drives, has_concept = drives_of(plan), CONCEPT in plan.data
    areas = [Layer(name, "area", ("edge",), colour, is_told=False) for name, colour in BOUNDS]
    names = ("edge", "from", "to", "length", "minutes", "load", "drives", "allowed")
    marks = Layer("loads", "mark", names, style.QUIET, width=14, symbol="none")
    marks.in_legend = False
    for edge in plan.edges.values():
        load, way = loads.get(edge.edge_id), ways[edge.edge_id]
        ends = plan.names[edge.left_stop], plan.names[edge.right_stop]
        minutes = f"{edge.lower_bound} to {edge.upper_bound}"
        told: Facts = ("", "", "")
        label = ""
        if load is not None:
            xs, ys = band(way, 0.0, WIDEST * load.load / top)
            layer = areas[bound_met(load, drives.get(edge.edge_id, 0), has_concept)]
            layer.shapes.append(Shape(f"load-{edge.edge_id}", xs, ys, [(edge.edge_id,)] * 4))
            label = number_text(load.load) if len(plan.edges) <= MANY else ""
            allowed = f"{load.minimal_frequency} to {load.maximal_frequency}"
            driven: Value = drives.get(edge.edge_id, 0) if has_concept else ""
            told = number_text(load.load), driven, allowed
        x, y = middle([way[0][0], way[1][0]], [way[0][1], way[1][1]])
        length = number_text(edge.length)
        facts: Facts = (edge.edge_id, *ends, length, minutes, *told)
        marks.shapes.append(Shape(f"load-mark-{edge.edge_id}", [x], [y], [facts], label))
    return [layer for layer in areas if layer.shapes] + [marks]


def line_section(plan: Plan) -> Section:
    """The lines that are driven, side by side over the network."""
    section = Section(
        "lines",
        "Line plan",
        "Each line that is driven has a band of its colour; beside its number stands how often it is"
        " driven in a period. Edges without a line are dashed.",
    )
    section.left_out = plan.missing(STOPS, EDGES, CONCEPT)
    if section.left_out:
        return section
    rows = [row for row in plan.data[CONCEPT] if row.frequency]
    rows = [row for row in rows if plan.choice.has_line(row.line_id)]
    idle = sorted({row.line_id for row in plan.data[CONCEPT] if not row.frequency})
    if idle:
        section.about += f" Not driven: {', '.join(map(plan.called, idle))}."
    places, _ = stop_places(plan)
    ways = edge_ways(plan, places)
    used = {row.edge_id for row in plan.data[CONCEPT] if row.frequency}
    bare = [edge for edge in plan.edges.values() if edge.edge_id not in used]
    layer = edge_layer("edges without a line", bare, ways)
    layer.dash, layer.is_told, layer.in_legend = "dash", True, bool(bare)
    layers = [layer, *line_layers(plan, rows, ways), stop_layer(plan, places)]
    section.pictures = [plane("lines", "Lines and how often they are driven", layers)]
    return section


def line_layers(
    plan: Plan, rows: list[ConceptRow], ways: dict[int, tuple[Place, Place]]
) -> list[Layer]:
    """A band for each line over each of its edges, with a mark in its middle that tells of it."""
    on: dict[int, list[int]] = defaultdict(list)
    for row in rows:
        on[row.edge_id].append(row.line_id)
    most = max(map(len, on.values()), default=1)
    wide = round(min(11.0, 110.0 / most), 2)
    layers: dict[int, tuple[Layer, Layer]] = {}
    for row in sorted(rows):
        line = row.line_id
        if line not in layers:
            colour, name = plan.colour(line), f"{plan.called(line)}, {row.frequency} in a period"
            areas = Layer(name, "area", ("line", "edge"), colour, (line,), is_told=False)
            names = ("line", "edge", "place", "frequency", "from", "to")
            marks = Layer(name, "mark", names, colour, (line,), width=14, symbol="none")
            marks.in_legend = False
            layers[line] = areas, marks
        areas, marks = layers[line]
        edge, group = plan.edges[row.edge_id], sorted(on[row.edge_id])
        away = (group.index(line) - (len(group) - 1) / 2) * wide
        xs, ys = band(ways[row.edge_id], away, wide * 0.86)
        name = f"line-{line}-edge-{row.edge_id}"
        areas.shapes.append(Shape(name, xs, ys, [(line, row.edge_id)] * 4))
        ends = plan.names[edge.left_stop], plan.names[edge.right_stop]
        facts = [(line, row.edge_id, row.edge_order, row.frequency, *ends)]
        x, y = middle(xs, ys)
        marks.shapes.append(Shape(f"{name}-mark", [x], [y], facts))
    for areas, marks in layers.values():
        place = len(marks.shapes) // 2
        often = marks.shapes[place].facts[0][3]
        label = f"{plan.short(marks.lines[0])} ×{often}"
        marks.shapes[place] = marks.shapes[place]._replace(label=label)
    return [layer for two in layers.values() for layer in two]
