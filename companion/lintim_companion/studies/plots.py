"""The page of plots of a study, by matplotlib: one HTML file that needs nothing beside it."""

import html
import io
from collections import defaultdict
from collections.abc import Callable
from pathlib import Path
from typing import Any

from .point import Row
from .study import TABLES, Plot, Study
from .table import broken, good, without_plan, write_whole

PAGE = "page.html"
Series = dict[str, list[tuple[float | str, float, int]]]
KEYS = [key for keys in TABLES.values() for key in keys]


def series_of(plot: Plot, rows: list[Row]) -> Series:
    """The points of each line of a plot: x, the mean of y, and of how many rows it is the mean.
    Where it is a part of something else it is the sum by the sum of that."""
    sums: dict[str, dict[float | str, list[float]]] = defaultdict(dict)
    for y in plot.y:
        whole = _wholes(plot, y, rows)
        for row in rows:
            x, value, part_of = row.get(plot.x), row.get(y), whole(row)
            if x is None or not _is_number(value) or not _is_number(part_of):
                continue
            words = ([y] if len(plot.y) > 1 else []) + ([str(row.get(plot.by))] if plot.by else [])
            found = sums[" ".join(words)].setdefault(x, [0.0, 0.0, 0])
            for at, more in enumerate((value, part_of, 1)):
                found[at] += more
    return {
        name: [(x, a / b, int(n)) for x, (a, b, n) in sorted(line.items(), key=_order) if b]
        for name, line in sums.items()
    }


def _wholes(plot: Plot, y: str, rows: list[Row]) -> Callable[[Row], Any]:
    """What the value of a row is a part of: 1 where means are wanted."""
    if plot.over:
        return lambda row: row.get(plot.over)
    if not plot.base:
        return lambda row: 1
    keys = [key for key in KEYS if key not in plot.base]

    def place(row: Row) -> tuple[object, ...]:
        return tuple(str(row.get(key)) for key in keys)

    at_base = {
        place(row): row.get(y)
        for row in rows
        if all(row.get(key) == value for key, value in plot.base.items())
    }
    return lambda row: at_base.get(place(row))


def _is_number(value: object) -> bool:
    return isinstance(value, (int, float)) and not isinstance(value, bool)


def _order(item: tuple[float | str, list[float]]) -> tuple[bool, float, str]:
    x = item[0]
    return (isinstance(x, str), 0.0 if isinstance(x, str) else x, str(x))


def picture(plot: Plot, rows: list[Row]) -> str:
    """A plot as SVG, the same bytes for the same rows."""
    from ..pictures.drawing import Figure, matplotlib

    with matplotlib.rc_context({"svg.hashsalt": "lintim", "svg.fonttype": "none"}):
        figure = Figure(figsize=(7, 3.6), layout="constrained")
        axes = figure.add_subplot()
        lines = series_of(plot, rows)
        places = dict.fromkeys(str(x) for line in lines.values() for x, _, _ in line)
        for name, line in lines.items():
            is_text = any(isinstance(x, str) for x, _, _ in line)
            xs = [list(places).index(str(x)) if is_text else x for x, _, _ in line]
            axes.plot(xs, [y for _, y, _ in line], marker="o", label=name)
            if is_text:
                axes.set_xticks(range(len(places)), list(places))
        axes.set_xlabel(plot.x)
        axes.set_ylabel(_named(plot))
        axes.set_title(plot.title)
        axes.grid(alpha=0.3)
        if len(lines) > 1:
            axes.legend(title=plot.by or None)
        text = io.StringIO()
        figure.savefig(text, format="svg", metadata={"Date": None})
    return text.getvalue()[text.getvalue().index("<svg") :]


def _named(plot: Plot) -> str:
    """What is drawn, in words."""
    parts = [plot.over] if plot.over else [f"{key} {value}" for key, value in plot.base.items()]
    columns = plot.y[0] if len(plot.y) == 1 else "columns"
    return columns + (f", by that of {', '.join(parts)}" if parts else "")


def page_of(study: Study, rows: list[Row]) -> str:
    """The page: plots, the numbers that they show, and what broke."""
    it = html.escape
    shown = good(rows) + (answers := without_plan(rows))
    parts = [
        "<!DOCTYPE html>",
        f'<html lang="en"><meta charset="utf-8"><title>{it(study.title)}</title>',
        "<style>body{font-family:sans-serif;max-width:52em;margin:1em auto}"
        "td,th{padding:0 .6em;text-align:right}</style>",
        f"<h1>{it(study.title)}</h1><p>{it(study.about)}</p>",
        f"<p>{len(rows)} points: {len(good(rows))} with all plans, {len(answers)} without a plan, "
        f"{len(broken(rows))} broken. Study {study.sha256[:16]}.</p>",
    ]
    for plot in study.plots:
        parts += [picture(plot, shown), _numbers(plot, shown)]
    if answers or broken(rows):
        parts.append("<h2>Points without all plans</h2><table>")
        for row in (*broken(rows), *answers):
            says = f"{row['outcome']}: {row['fault']}" if row["fault"] else row["outcome"]
            parts.append(f"<tr><td>{row['point']}<td>{it(says)}")
        parts.append("</table>")
    return "\n".join([*parts, "</html>", ""])


def _numbers(plot: Plot, rows: list[Row]) -> str:
    """The numbers of a plot."""
    parts = [f"<details><summary>{html.escape(_named(plot))}, in numbers</summary><table>"]
    parts.append(f"<tr><th>{plot.by}<th>{plot.x}<th>mean<th>points")
    for name, line in series_of(plot, rows).items():
        for x, y, count in line:
            parts.append(f"<tr><td>{html.escape(name)}<td>{x}<td>{y:.4g}<td>{count}")
    return "\n".join([*parts, "</table></details>"])


def write_page(study: Study, rows: list[Row], into: Path) -> None:
    """Writes the page of plots."""
    write_whole(into / PAGE, page_of(study, rows).encode())
