"""Pictures of datasets that somebody has changed: drawn, or refused in one line; and the ids of shapes
in files for paper."""

import random
import re
import shutil
from collections import Counter
from pathlib import Path
from typing import Any

import pytest

from drawn import Sheet
from drawn_cases import town
from lintim_companion import dataset, formats
from lintim_companion.cells import File
from lintim_companion.faults import Refused
from lintim_companion.pictures.numbers import difference_section, number_section
from lintim_companion.pictures.page import Side, page_of
from lintim_companion.pictures.plan import Choice, Plan
from lintim_companion.pictures.scene import Picture
from lintim_companion.pictures.sections import sections_of

__all__ = ["town"]
for module in ("plotly", "matplotlib", "networkx", "scipy"):
    pytest.importorskip(module)
MADE = [file for file in formats.FILES if not file.name.startswith(("pinned/", "waiting/"))]
OWN = re.compile(
    r"(figure|axes|patch|line2d|xtick|ytick|text|legend|PolyCollection)_\d+|matplotlib\.axis_\d+"
    r"|[mp][0-9a-f]{10}|.*-label"
)


def page(folder: Path, other: Path) -> bytes:
    """The page of two datasets."""
    plans = [Plan(dataset.read(it), Choice(), [1, 2, 4, 5]) for it in (folder, other)]
    sides = [Side("one", sections_of(plan)) for plan in plans]
    last = number_section(plans[0], plans[1])
    return page_of([difference_section(plans[0], plans[1])], sides, [last], {}, None)


def change(folder: Path, file: File[Any], chance: random.Random) -> None:
    """Takes a row away, doubles it, or puts another number in the place of one of its numbers."""
    path = folder / file.name
    head, *lines = path.read_text().splitlines()
    if not lines:
        return
    place = chance.randrange(len(lines))
    cells = lines[place].split("; ")
    numbers = [at for at, cell in enumerate(cells) if cell.isdigit()]
    way = chance.choice(("away", "double", "number", "number", "number"))
    if way == "away":
        del lines[place]
    elif way == "double":
        lines.append(lines[place])
    elif numbers:
        cells[chance.choice(numbers)] = str(chance.choice((0, 1, 2, 3, 7, 60, 999, 10**6)))
        lines[place] = "; ".join(cells)
    path.write_text("\n".join((head, *lines, "")))


@pytest.mark.parametrize("seed", range(12))
def test_changed_datasets_are_drawn_or_refused(seed: int, town: Path, tmp_path: Path) -> None:
    chance, ends = random.Random(seed), Counter[str]()
    for number in range(12):
        folder = Path(shutil.copytree(town, tmp_path / str(number)))
        for _ in range(chance.choice((1, 1, 3))):
            change(
                folder, chance.choice([it for it in MADE if (folder / it.name).exists()]), chance
            )
        try:
            ends["drawn"] += page(folder, town).endswith(b"</html>\n")
        except Refused as why:
            assert re.search(r"\.(giv|lin|tim|vs|cert|sta)", str(why)), why
            ends["refused"] += 1
    assert ends["drawn"] + ends["refused"] == 12 and ends["drawn"]


def pictures_of(folder: Path) -> list[Picture]:
    """All pictures of a dataset."""
    sections = sections_of(Plan(dataset.read(folder), Choice(paths=((1, 2, 4),))))
    return [picture for section in sections for picture in section.pictures]


def test_each_shape_has_a_name_of_its_own_and_an_svg_has_it_as_id(town: Path) -> None:
    from lintim_companion.pictures.paper import paper_of

    for picture in pictures_of(town):
        names = [shape.name for layer in picture.layers for shape in layer.shapes]
        assert len({*names}) == len(names), picture.key
        ids = Counter(Sheet(paper_of(picture, "svg")).ids)
        shown = {
            shape.name
            for layer in picture.layers
            for shape in layer.shapes
            if layer.symbol != "none" or shape.label
        }
        assert all(ids[name] == 1 for name in shown)
        assert all(OWN.fullmatch(id) for id in ids if id not in shown), picture.key
