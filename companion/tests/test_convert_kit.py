"""The kit for those who have datasets of LinTim, and totals that papers give of LinTim's datasets."""

import os
import subprocess
from pathlib import Path

import pytest

import second_reader
from commands import environment, run
from lintim_companion import program
from lintim_form import EVENTS, rows, toy, without
from mistakes import EDGE
from test_convert import files_of

pytestmark = pytest.mark.usefixtures("lintim")
KIT = program.CHECKOUT / "companion/kit"
# Customers of LinTim's datasets as papers tell them; their folders lie in what LINTIM_DATASETS names.
TOTALS = {"toy": 2622, "grid": 2546, "lowersaxony": 11967, "athens": 63323, "goevb": 406146}


def kit(*words: object) -> list[str]:
    ended = subprocess.run(
        [KIT, *map(str, words)], capture_output=True, text=True, env=environment(), cwd="/"
    )
    assert (ended.returncode, ended.stderr) == (0, "")
    return ended.stdout.splitlines()


@pytest.mark.skipif(not KIT.exists(), reason="this is no checkout")
def test_ten_lines_for_each_dataset(tmp_path: Path) -> None:
    good = toy(tmp_path / "good")
    half = toy(tmp_path / "half", without(EDGE))
    old = toy(tmp_path / "old", rows(EVENTS, lambda it: it[:5]))
    before = files_of(tmp_path)
    lines = kit(good, half, old)
    assert files_of(tmp_path) == before
    assert len(lines) == 30
    words = [line.split(":")[0] for line in lines]
    wanted = "columns in found lost make check out back judge".split()
    assert words[1:10] == words[11:20] == words[21:] == wanted
    assert lines[1] == "columns: 14 files as thought; no others"
    assert lines[5:9] == ["make: done", "check: checked", "out: 19 files", "back: the same"]
    assert lines[9].endswith("kept: concept, timetable, vehicle schedule")
    assert lines[12].endswith("is no whole dataset of LinTim: basis/Edge.giv is missing")
    assert "timetabling/Events-periodic.giv has 5 and not 7" in lines[21]
    assert not any("Markt" in line or "Domplatz" in line for line in lines)


@pytest.mark.parametrize("name", TOTALS)
def test_totals_that_papers_give(name: str, tmp_path: Path) -> None:
    folder = Path(os.environ.get("LINTIM_DATASETS", "/nowhere")) / name
    if not folder.is_dir():
        pytest.skip("no datasets of LinTim: LINTIM_DATASETS names the folder that has them")
    assert second_reader.customers(folder) == pytest.approx(TOTALS[name], abs=1)
    ended = run("lintim-convert", "in", folder, tmp_path / name)
    assert ended.status == 0, ended.err
