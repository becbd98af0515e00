"""Pictures as data, for whatever draws them: layers of shapes, each with the ids of what it draws.

A shape is a stroke, an area, a mark or a bar. It has a name of its own in its picture, and for each
vertex a tuple of facts, which hovering tells; the first fact is the id of the row that the vertex
draws. Times are minutes of the day, other places are as the picture says.
"""

import re
from collections.abc import Sequence
from dataclasses import dataclass, field
from typing import Literal, NamedTuple

LONGEST = 60  # letters of a name
STRANGE = re.compile(
    "[^ -~\u00a0-\u2027\u202f-\u2065\u206a-\ud7ff\ue000-\ufffd\U00010000-\U0010ffff]"
)
Value = int | float | str
Facts = tuple[Value, ...]
Kind = Literal["stroke", "area", "mark", "bar"]


def named(text: str) -> str:
    """A name as pictures show it: a sign that no text of a page or of an SVG may hold is a mark in
    the place of it, and a name that is far too long is cut."""
    text = STRANGE.sub("\ufffd", text)
    return text if len(text) <= LONGEST else f"{text[:LONGEST]}\u2026"


class Shape(NamedTuple):
    """A shape: its vertices and their facts. A bar has its two ends as `x`, and its row as `y`."""

    name: str
    x: Sequence[float]
    y: Sequence[float]
    facts: Sequence[Facts]
    label: str = ""


@dataclass
class Layer:
    """Shapes of one look. `facts` names the facts of a vertex. A layer is gone where one of its
    `lines` is switched off."""

    name: str
    kind: Kind
    facts: tuple[str, ...]
    colour: str
    lines: tuple[int, ...] = ()
    shapes: list[Shape] = field(default_factory=list)
    width: float = 1.5
    dash: str = "solid"
    symbol: str = "circle"
    is_told: bool = True
    in_legend: bool = True


class Axis(NamedTuple):
    """An axis: `time` in minutes of the day, `named` places, plain `number`s, or a `plane` without
    marks."""

    kind: Literal["time", "named", "number", "plane"]
    title: str = ""
    ticks: tuple[tuple[float, str], ...] = ()
    least: float | None = None
    greatest: float | None = None


@dataclass
class Picture:
    """A picture; where it is `even`, both axes have one scale."""

    key: str
    title: str
    x: Axis
    y: Axis
    layers: list[Layer]
    height: int = 480
    is_even: bool = False


@dataclass
class Section:
    """A part of the page: pictures or a table, or why there is none."""

    key: str
    title: str
    about: str
    pictures: list[Picture] = field(default_factory=list)
    table: list[tuple[str, ...]] = field(default_factory=list)
    head: tuple[str, ...] = ()
    left_out: str = ""


def row_axis(names: Sequence[str]) -> tuple[Axis, int]:
    """An axis with a row for each name, the first one above, and how high its picture is: many rows
    are lower, and then not every one has its name beside it."""
    count = max(len(names), 1)
    each = max(5, min(26, 1200 // count))
    step = -(-14 // each)
    ticks = tuple((float(row), name) for row, name in enumerate(names) if row % step == 0)
    return Axis("named", "", ticks, count - 0.4, -0.6), 150 + each * count
