"""Turning pages and pictures back into rows: what is drawn, with the ids that it carries."""

import json
import math
import re
import xml.etree.ElementTree as ElementTree
from collections.abc import Iterator
from pathlib import Path
from typing import Any, NamedTuple

from commands import Ended, run

Trace = dict[str, Any]
SVG = "{http://www.w3.org/2000/svg}"


class Vertex(NamedTuple):
    """A vertex: where it is, and its facts."""

    x: float
    y: float
    facts: tuple[Any, ...]


class Page:
    """The pictures on a page."""

    def __init__(self, path: Path) -> None:
        self.text = path.read_text()
        found = re.search(
            r'<script type="application/json" id="pictures">(.*?)</script>', self.text
        )
        assert found
        self.figures: dict[str, Any] = json.loads(found[1])

    def of(self, section: str, side: int = 0) -> dict[str, Any]:
        """The figures of a section, by their keys."""
        keys = [key.split("/") for key in self.figures]
        return {
            key: self.figures[f"{of}/{key}/{at}"]
            for of, key, at in keys
            if of == section and at == str(side)
        }

    def table(self, section: str) -> list[list[str]]:
        """The rows of the table of a section."""
        part = self.text[self.text.index(f'<section id="{section}">') :].split("</section>")[0]
        rows = re.findall(r"<tr>(.*?)</tr>", part)
        return [re.findall(r"<t[hd]>(.*?)</t[hd]>", row) for row in rows]

    def why_left_out(self) -> dict[str, str]:
        """Why sections are left out."""
        parts = re.findall(r'<section id="(.*?)">(.*?)</section>', self.text, re.S)
        found = {key: re.search(r"Left out: (.*?)\.</p>", part) for key, part in parts}
        return {key: it[1] for key, it in found.items() if it}


def drawn(folder: Path, *words: object) -> Page:
    """The page of a dataset."""
    out = folder.parent / f"{folder.name}.html"
    ended: Ended = run("lintim-view", folder, "--out", out, *words)
    assert (ended.status, ended.err) == (0, []), ended.err
    return Page(out)


def traces(figure: dict[str, Any], kind: str, fact: str, names: int = 0) -> Iterator[Trace]:
    """The traces of a kind whose first fact has this name, and that have so many facts."""
    for trace in figure["data"]:
        meta = trace["meta"]
        if meta["kind"] == kind and meta["facts"][0] == fact:
            if not names or len(meta["facts"]) == names:
                yield trace


def shapes(trace: Trace) -> list[list[Vertex]]:
    """The vertices of each shape of a trace; of a mark, one."""
    found: list[list[Vertex]] = [[]]
    is_apart = trace["meta"]["kind"] in ("mark", "bar")
    assert len(trace["x"]) == len(trace["y"]) == len(trace["customdata"])
    for x, y, facts in zip(trace["x"], trace["y"], trace["customdata"]):
        if facts is None:
            assert x is None and y is None
            found.append([])
        else:
            if is_apart and found[-1]:
                found.append([])
            found[-1].append(Vertex(x, y, tuple(facts)))
    return found


def minute_at(x: float, y: float, period: int) -> int:
    """The minute of a place on a circle."""
    turn = math.atan2(x, y) / (2 * math.pi) * period
    assert abs(turn - round(turn)) < 0.02
    return round(turn) % period


class Sheet:
    """A picture as SVG: its shapes by their ids, in minutes and the names of rows."""

    def __init__(self, data: bytes) -> None:
        self.root = ElementTree.fromstring(data)
        self.ids = [it.get("id", "") for it in self.root.iter() if it.get("id")]
        self.x, self.y = self.marks("xtick"), self.marks("ytick")

    def marks(self, name: str) -> list[tuple[float, str]]:
        """The places of the marks of an axis, and their texts."""
        found = []
        for group in self.root.iter(f"{SVG}g"):
            if re.fullmatch(rf"{name}_\d+", group.get("id", "")):
                use = [it for it in group.iter(f"{SVG}use")][-1]
                text = "".join([it for it in group.iter(f"{SVG}text")][-1].itertext())
                found.append((float(use.get("x" if name == "xtick" else "y", "")), text.strip()))
        return found

    def vertices(self, id: str) -> list[tuple[float, float]]:
        """The vertices of a shape, in the units of the file."""
        group = next(it for it in self.root.iter(f"{SVG}g") if it.get("id") == id)
        path = next(group.iter(f"{SVG}path")).get("d", "")
        numbers = re.findall(r"[ML] ([-\d.]+) ([-\d.]+)", path)
        return [(float(x), float(y)) for x, y in numbers]

    def minute(self, x: float) -> int:
        """The minute of a place, by the marks of the axis of times."""
        (left, first), (right, last) = self.x[0], self.x[-1]
        begin, end = (60 * int(text[:-3]) + int(text[-2:]) for text in (first, last))
        value = begin + (x - left) / (right - left) * (end - begin)
        assert abs(value - round(value)) < 0.01
        return round(value)

    def row(self, y: float) -> str:
        """The name of the row of a place."""
        place, name = min(self.y, key=lambda mark: abs(mark[0] - y))
        assert abs(place - y) < 0.01
        return name
