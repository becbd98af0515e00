"""Pictures as traces and layouts of plotly.

A trace draws a layer. Its `customdata` has the facts of each vertex, of which the first is the id of
the row that it draws; its `meta` has their names and the lines with which the trace goes away.
"""

import html
from typing import Any

from . import style
from .scene import Axis, Layer, Picture, Shape, Value

Trace = dict[str, Any]
SYMBOLS = {
    "circle": "circle",
    "triangle": "triangle-up",
    "cross": "x",
    "diamond": "diamond",
    "star": "star",
    "none": "circle",
    "dot": "circle",
}


def plain(value: float) -> float:
    """A number in its shortest spelling."""
    return int(value) if value == int(value) else value


def escaped(text: str) -> str:
    """A text that plotly shows as it is."""
    return html.escape(text, quote=False)


def trace_of(layer: Layer) -> Trace:
    """A layer as a trace of plotly."""
    makers = {"stroke": stroke_trace, "area": area_trace, "mark": mark_trace, "bar": bar_trace}
    trace = makers[layer.kind](layer)
    trace["name"] = trace["legendgroup"] = escaped(layer.name)
    trace["showlegend"] = layer.in_legend
    trace["meta"] = {"facts": list(layer.facts), "lines": list(layer.lines), "kind": layer.kind}
    trace["hoverinfo"] = "text" if layer.is_told else "skip"
    return trace


def facts_of(shape: Shape) -> list[list[Value]]:
    """The facts of all vertices of a shape."""
    return [[*facts] for facts in shape.facts]


def joined(layer: Layer) -> Trace:
    """The vertices of all shapes in one row, with nothing between two shapes."""
    x: list[float | None] = []
    y: list[float | None] = []
    facts: list[list[Value] | None] = []
    for shape in layer.shapes:
        if x:
            x.append(None)
            y.append(None)
            facts.append(None)
        x += map(plain, shape.x)
        y += map(plain, shape.y)
        facts += facts_of(shape)
    return {"type": "scatter", "x": x, "y": y, "customdata": facts}


def stroke_trace(layer: Layer) -> Trace:
    """Strokes, one after the other in one trace."""
    line = {"color": layer.colour, "width": layer.width, "dash": layer.dash}
    return {**joined(layer), "mode": "lines", "line": line}


def area_trace(layer: Layer) -> Trace:
    """Areas in one trace, each of which is closed from its last vertex to its first."""
    look = {"fill": "toself", "fillcolor": layer.colour, "line": {"width": 0}}
    return {**joined(layer), "mode": "lines", **look}


def mark_trace(layer: Layer) -> Trace:
    """Marks, with their labels where they have some."""
    is_labelled = any(shape.label for shape in layer.shapes)
    marker = {"color": layer.colour, "size": layer.width, "symbol": SYMBOLS[layer.symbol]}
    marker["opacity"] = 0 if layer.symbol == "none" else 1
    trace: Trace = {
        "type": "scatter",
        "mode": "markers+text" if is_labelled else "markers",
        "x": [plain(shape.x[0]) for shape in layer.shapes],
        "y": [plain(shape.y[0]) for shape in layer.shapes],
        "customdata": [facts_of(shape)[0] for shape in layer.shapes],
        "marker": marker,
    }
    if is_labelled:
        trace["text"] = [escaped(shape.label) for shape in layer.shapes]
        trace["textposition"] = "middle center" if layer.symbol == "none" else "top center"
    return trace


def bar_trace(layer: Layer) -> Trace:
    """Bars along the rows of a picture."""
    return {
        "type": "bar",
        "orientation": "h",
        "base": [plain(shape.x[0]) for shape in layer.shapes],
        "x": [plain(shape.x[1] - shape.x[0]) for shape in layer.shapes],
        "y": [plain(shape.y[0]) for shape in layer.shapes],
        "width": layer.width,
        "customdata": [facts_of(shape)[0] for shape in layer.shapes],
        "marker": {"color": layer.colour, "line": {"color": layer.colour, "width": 0.5}},
        "textposition": "none",
    }


def ends_of(axis: Axis, picture: Picture, way: int) -> tuple[float, float]:
    """From where to where an axis goes: as it says, or around all shapes."""
    shapes = [shape for layer in picture.layers for shape in layer.shapes]
    values = [it for shape in shapes for it in (shape.y if way else shape.x)]
    least, greatest = min(values, default=0.0), max(values, default=1.0)
    around = 0.04 * (greatest - least or 1.0) * (2 if axis.kind == "plane" else 1)
    low = least - around if axis.least is None else axis.least
    return round(low, 3), round(greatest + around if axis.greatest is None else axis.greatest, 3)


def layout_of(picture: Picture, x_ends: tuple[float, float]) -> dict[str, Any]:
    """The layout of a picture."""
    layout: dict[str, Any] = {
        "height": picture.height,
        "barmode": "overlay",
        "hovermode": "closest",
        "hoverdistance": 24,
        "margin": {"l": 60, "r": 20, "t": 20, "b": 45},
        "font": {"family": style.FONT, "size": 12},
        "legend": {"orientation": "h", "y": -0.02, "yanchor": "top", "itemclick": False},
        "paper_bgcolor": "rgba(0,0,0,0)",
        "plot_bgcolor": "rgba(0,0,0,0)",
        "xaxis": axis_of(picture.x, x_ends),
        "yaxis": axis_of(picture.y, ends_of(picture.y, picture, 1)),
    }
    layout["legend"]["itemdoubleclick"] = False
    if picture.x.kind == "time":
        layout["legend"] |= {"y": 1.0, "yanchor": "bottom"}
        layout["margin"]["t"] = 50
    if picture.is_even:
        layout["yaxis"] |= {"scaleanchor": "x", "constrain": "domain"}
        layout["xaxis"] |= {"constrain": "domain"}
    return layout


def axis_of(axis: Axis, ends: tuple[float, float]) -> dict[str, Any]:
    """An axis of a layout."""
    made: dict[str, Any] = {"range": [plain(end) for end in ends], "zeroline": False}
    if axis.kind == "plane":
        return made | {"visible": False}
    if axis.title:
        made["title"] = {"text": axis.title}
    if axis.kind == "named":
        made["tickmode"] = "array"
        made["tickvals"] = [plain(place) for place, _ in axis.ticks]
        made["ticktext"] = [escaped(name) for _, name in axis.ticks]
        made["automargin"] = True
    return made


def figure_of(picture: Picture, x_ends: tuple[float, float] | None = None) -> dict[str, Any]:
    """A picture as a figure of plotly, and of which kind its axis of times is."""
    ends = x_ends or ends_of(picture.x, picture, 0)
    return {
        "data": [trace_of(layer) for layer in picture.layers],
        "layout": layout_of(picture, ends),
        "time": picture.x.kind == "time",
    }
