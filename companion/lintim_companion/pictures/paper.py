"""Pictures as files for print and slides, drawn by matplotlib. In an SVG each shape has its name as
its id. The same picture gives the same bytes."""

import io
import warnings
from functools import cache
from typing import TYPE_CHECKING, Any

from ..clocks import clock
from . import style
from .drawing import Figure, FigureCanvasAgg, FigureCanvasSVG, FT2Font, findfont, matplotlib
from .scene import Axis, Layer, Picture, Shape
from .traces import ends_of

if TYPE_CHECKING:
    from matplotlib.axes import Axes

WIDE = 9.0  # inches
DOTS = 100.0  # of the page to an inch
SYMBOLS = {"circle": "o", "triangle": "^", "cross": "X", "diamond": "D", "star": "*", "dot": "."}
DASHES = {"solid": "-", "dash": "--", "dot": ":", "dashdot": "-."}
SETTINGS: dict[Any, Any] = {
    "svg.hashsalt": "lintim",
    "svg.fonttype": "none",
    "font.family": "DejaVu Sans",
    "font.size": 9,
    "text.parse_math": False,
    "text.color": style.LIGHT_TEXT,
    "axes.edgecolor": style.QUIET,
    "path.simplify": False,
}
STEPS = (1, 2, 5, 10, 15, 30, 60, 120, 180, 360, 720, 1440, 10080, 100800)


def lacking(picture: Picture) -> list[str]:
    """The signs of a picture that its font has not."""
    texts = [picture.title, *(name for axis in (picture.x, picture.y) for _, name in axis.ticks)]
    texts += [shape.label for layer in picture.layers for shape in layer.shapes]
    return sorted({sign for text in texts for sign in text if ord(sign) not in signs_of_font()})


@cache
def signs_of_font() -> frozenset[int]:
    """The numbers of the signs that the font of pictures has."""
    return frozenset(FT2Font(findfont(str(SETTINGS["font.family"]))).get_charmap())


def paper_of(picture: Picture, ending: str) -> bytes:
    """A picture as the bytes of a file: `svg`, or `png` with 160 dots to an inch. matplotlib warns of
    signs that its font lacks, one by one, which `lacking` tells better."""
    with warnings.catch_warnings(), matplotlib.rc_context(
        {**matplotlib.rcParamsDefault, **SETTINGS, "backend": "agg"}
    ):
        warnings.simplefilter("ignore")
        figure = Figure(figsize=(WIDE, max(3.0, min(picture.height / DOTS, 120.0))))
        axes = figure.add_subplot()
        axes.set_title(picture.title, loc="left", fontsize=10, fontweight="bold")
        for order, layer in enumerate(picture.layers):
            draw(axes, layer, order)
        set_axis(axes, "x", picture.x, ends_of(picture.x, picture, 0))
        set_axis(axes, "y", picture.y, ends_of(picture.y, picture, 1))
        finish(axes, picture)
        out = io.BytesIO()
        if ending == "svg":
            FigureCanvasSVG(figure)
            metadata: dict[str, str | None] = {"Date": None, "Creator": "lintim-view"}
        else:
            FigureCanvasAgg(figure)
            metadata = {"Software": None}
        figure.savefig(out, format=ending, dpi=160, bbox_inches="tight", metadata=metadata)
    return out.getvalue()


def finish(axes: "Axes", picture: Picture) -> None:
    """The legend, and one scale for both axes where there is one."""
    if picture.is_even:
        axes.set_aspect("equal")
        axes.set_axis_off()
    axes.spines[["top", "right"]].set_visible(False)
    axes.set_axisbelow(True)
    handles, names = axes.get_legend_handles_labels()
    told = dict(zip(names, handles))
    if told:
        height = axes.figure.get_size_inches()[1] * axes.get_position().height
        below = {
            "loc": "upper left",
            "bbox_to_anchor": (0, -0.02 if picture.is_even else -0.3 / height),
        }
        axes.legend(told.values(), told.keys(), ncol=3, frameon=False, fontsize=8, **below)


def set_axis(axes: "Axes", way: str, axis: Axis, ends: tuple[float, float]) -> None:
    """The ends and the marks of an axis."""
    on = axes.xaxis if way == "x" else axes.yaxis
    (axes.set_xlim if way == "x" else axes.set_ylim)(*ends)
    on.set_label_text(axis.title)
    if axis.kind == "named":
        on.set_ticks([place for place, _ in axis.ticks], [name for _, name in axis.ticks])
    if axis.kind == "time":
        span = max(ends[1] - ends[0], 1.0)
        step = next((it for it in STEPS if span / it <= 12), STEPS[-1])
        first = -int(-max(ends[0], 0.0) // step) * step
        ticks = [*range(first, int(max(ends[1], 0.0)) + 1, step)]
        on.set_ticks(ticks, [clock(tick) for tick in ticks])
    if axis.kind != "plane":
        on.grid(True, color="#d3d8dd", linewidth=0.5)


def draw(axes: "Axes", layer: Layer, order: int) -> None:
    """The shapes of a layer; the first one stands in the legend for all."""
    name = layer.name if layer.in_legend else None
    for shape in layer.shapes:
        look: dict[str, Any] = {"gid": shape.name, "zorder": 2 + order / 100, "label": name}
        name = None
        if layer.kind == "stroke":
            look |= {"linewidth": 0.8 * layer.width, "linestyle": DASHES[layer.dash]}
            axes.plot(shape.x, shape.y, color=layer.colour, **look)
        elif layer.kind == "area":
            axes.fill(shape.x, shape.y, color=layer.colour, linewidth=0, **look)
        elif layer.kind == "bar":
            long, look["edgecolor"] = shape.x[1] - shape.x[0], layer.colour
            bars = axes.barh(
                shape.y[0], long, layer.width, shape.x[0], color=layer.colour, linewidth=0.4, **look
            )
            bars[0].set_gid(shape.name)
        else:
            mark(axes, layer, shape, look)


def mark(axes: "Axes", layer: Layer, shape: Shape, look: dict[str, Any]) -> None:
    """A mark with its label."""
    if layer.symbol != "none":
        look |= {"marker": SYMBOLS[layer.symbol], "markersize": 0.6 * layer.width}
        axes.plot(shape.x, shape.y, color=layer.colour, linestyle="none", **look)
    if shape.label:
        is_alone = layer.symbol == "none"
        box = {"boxstyle": "round,pad=0.12", "facecolor": "white", "alpha": 0.75, "linewidth": 0}
        axes.annotate(
            shape.label,
            (shape.x[0], shape.y[0]),
            (0, 0 if is_alone else 5),
            textcoords="offset points",
            ha="center",
            va="center" if is_alone else "bottom",
            fontsize=8,
            zorder=9,
            bbox=box,
            gid=shape.name if is_alone else f"{shape.name}-label",
        )
