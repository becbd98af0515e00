"""Datasets with all plans, and their pages, for tests of pictures."""

import shutil
from collections import Counter
from pathlib import Path
from typing import Any

import pytest

import seeded
from conftest import EXAMPLES
from drawn import Page, drawn
from lintim_companion import dataset, demos, formats, program
from lintim_companion.dataset import Dataset

SEEDS = (3, 11, 18, 19, 23, 32)
NAMES = ("market-town", "three-stops", "demo 3", *(f"seed {seed}" for seed in SEEDS))
LONG = [f"seed {seed}" for seed in range(1, 61) if seed not in SEEDS] + ["demo 6"]


def made_folder(folder: Path, name: str) -> Path:
    """A dataset with all plans: an example, a demo, or one from a number, with delays."""
    kind, _, number = name.partition(" ")
    if kind == "demo":
        demos.write_demo(folder, int(number))
    elif kind == "seed":
        seeded.write(folder, seeded.dataset(int(number)))
    else:
        shutil.copytree(EXAMPLES / name, folder)
    if program.run(folder, "make").status != 0:
        pytest.skip("no plans of this number")
    if kind != "market-town":
        data = dataset.read(folder)
        sizes = len(data[formats.DAY_EVENTS]), len(data[formats.DAY_ACTIVITIES])
        seeded.write(folder, seeded.delays(7, *sizes))
        assert program.run(folder, "make").status == 0
    return folder


@pytest.fixture(scope="module")
def town(tmp_path_factory: pytest.TempPathFactory, lintim: str) -> Path:
    """The example market-town with all plans."""
    return made_folder(tmp_path_factory.mktemp("pictures") / "town", "market-town")


CASES: list[Any] = [*NAMES, *(pytest.param(name, marks=pytest.mark.long) for name in LONG)]


@pytest.fixture(scope="module", params=CASES)
def both(
    request: pytest.FixtureRequest, tmp_path_factory: pytest.TempPathFactory, lintim: str
) -> tuple[Dataset, Page]:
    """A dataset and its page."""
    folder = tmp_path_factory.mktemp("pictures") / "dataset"
    made_folder(folder, request.param)
    return dataset.read(folder), drawn(folder)


def once(found: list[Any], wanted: list[Any]) -> None:
    """Sees that all that is wanted was found once, and nothing else."""
    assert Counter(found) == Counter(wanted)
    assert not wanted or max(Counter(found).values()) == 1
