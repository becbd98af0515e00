"""One page with all pictures, which a browser shows without a network."""

import html
import json
from pathlib import Path
from typing import Any, NamedTuple

from .scene import Picture, Section
from .traces import ends_of, figure_of

HERE = Path(__file__).parent
CHOSEN = ("space-time", "period")  # sections that show one picture at a time


class Side(NamedTuple):
    """A dataset on the page: its name, and its sections."""

    name: str
    sections: list[Section]


def page_of(
    first: list[Section],
    sides: list[Side],
    last: list[Section],
    lines: dict[int, tuple[str, str]],
    script: str | None,
) -> bytes:
    """The page: sections of all, sections of each dataset, and sections of all again. `lines` has the name and the colour of each line that can be switched off. The script of plotly
    is within the page, or a file `plotly.js` beside it where none is given."""
    figures: dict[str, Any] = {}
    names = [side.name for side in sides]
    parts = [section_html([section], [""], figures) for section in first]
    parts += [
        section_html([*sections], names, figures)
        for sections in zip(*(side.sections for side in sides))
    ]
    parts += [section_html([section], [""], figures) for section in last]
    data = json.dumps(figures, separators=(",", ":"), ensure_ascii=False).replace("<", "\\u003c")
    title = html.escape(" and ".join(names))
    plotly = '<script src="plotly.js" charset="utf-8"></script>'
    if script is not None:
        plotly = f'<script charset="utf-8">{script}</script>'
    page = [
        '<!doctype html>\n<html lang="en"><head><meta charset="utf-8">',
        '<meta name="viewport" content="width=device-width, initial-scale=1">',
        f'<link rel="icon" href="data:,"><title>{title}</title>',
        f"<style>\n{HERE.joinpath('page.css').read_text()}</style></head>",
        f"<body>\n<header><h1>{title}</h1>{chips(lines)}",
        '<button id="theme" type="button">dark or light</button></header>\n<main>',
        *parts,
        "</main>",
        f'<script type="application/json" id="pictures">{data}</script>',
        plotly,
        f"<script>\n{HERE.joinpath('page.js').read_text()}</script>\n</body></html>\n",
    ]
    return "\n".join(page).encode(errors="replace")


def chips(lines: dict[int, tuple[str, str]]) -> str:
    """The switches of the lines."""
    made = [
        f'<button type="button" class="chip" data-line="{line}" aria-pressed="true"'
        f' style="--colour:{colour}">{html.escape(name)}</button>'
        for line, (name, colour) in lines.items()
    ]
    return f'<nav aria-label="lines">{"".join(made)}</nav>'


def section_html(sections: list[Section], names: list[str], figures: dict[str, Any]) -> str:
    """A section of one dataset, or of two beside one another."""
    first = sections[0]
    keys = list(dict.fromkeys(it.key for section in sections for it in section.pictures))
    ends = [shared_ends(sections, key) for key in keys]
    parts = [f'<section id="{first.key}"><h2>{html.escape(first.title)}</h2>']
    parts += [f'<p class="about">{html.escape(it)}</p>' for it in {s.about: 0 for s in sections}]
    if first.key in CHOSEN and len(keys) > 1:
        parts.append(chooser(sections, keys))
    parts.append(f'<div class="sides sides{len(sections)}">')
    for side, (section, name) in enumerate(zip(sections, names)):
        parts.append('<div class="side">')
        if len(sections) > 1:
            parts.append(f"<h3>{html.escape(name)}</h3>")
        if section.left_out:
            parts.append(f'<p class="left-out">Left out: {html.escape(section.left_out)}.</p>')
        mine = {it.key: it for it in section.pictures}
        for place, key in enumerate(keys):
            is_shown = place == 0 or first.key not in CHOSEN
            parts.append(picture_html(mine.get(key), key, first.key, is_shown, side, section))
            if key in mine:
                figures[f"{first.key}/{key}/{side}"] = figure_of(mine[key], ends[place])
        parts += [table_html(section), "</div>"]
    return "\n".join([*parts, "</div></section>"])


def shared_ends(sections: list[Section], key: str) -> tuple[float, float] | None:
    """From where to where the times of a picture go that two datasets have."""
    found = [it for section in sections for it in section.pictures if it.key == key]
    if len(found) < 2 or found[0].x.kind != "time":
        return None
    both = [ends_of(it.x, it, 0) for it in found]
    return min(low for low, _ in both), max(high for _, high in both)


def chooser(sections: list[Section], keys: list[str]) -> str:
    """What shows one of the pictures of a section."""
    titles = {it.key: it.title for section in reversed(sections) for it in section.pictures}
    options = [f'<option value="{key}">{html.escape(titles[key])}</option>' for key in keys]
    return f'<p><select aria-label="which picture">{"".join(options)}</select></p>'


def picture_html(
    picture: Picture | None, key: str, of: str, is_shown: bool, side: int, section: Section
) -> str:
    """The place of a picture, or a word where one of two datasets does not have it."""
    hidden = "" if is_shown else " hidden"
    if picture is None:
        why = "" if section.left_out else "Not in this one."
        return f'<figure data-key="{key}"{hidden}><figcaption>{why}</figcaption></figure>'
    return (
        f'<figure data-key="{key}"{hidden}><figcaption>{html.escape(picture.title)}</figcaption>'
        f'<div class="picture" data-picture="{of}/{key}/{side}"'
        f' style="height:{picture.height}px"></div></figure>'
    )


def table_html(section: Section) -> str:
    """The table of a section, where it has one."""
    if not section.table:
        return ""
    rows = [section.head, *section.table]
    cells = [
        "".join(f"<{kind}>{html.escape(cell)}</{kind}>" for cell in row)
        for row, kind in zip(rows, ["th"] + ["td"] * len(section.table))
    ]
    return "<table>" + "".join(f"<tr>{row}</tr>" for row in cells) + "</table>"
