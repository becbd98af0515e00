"""What the command `lintim-view` refuses, each in one line."""

import os
import shutil
from pathlib import Path

import pytest

from commands import PYTHON, Ended, run
from drawn_cases import made_folder
from lintim_companion import formats

for module in ("plotly", "matplotlib", "networkx", "scipy"):
    pytest.importorskip(module)


@pytest.fixture(scope="module")
def plan(tmp_path_factory: pytest.TempPathFactory, lintim: str) -> Path:
    """The example market-town with all plans; tests leave it as it is."""
    return made_folder(tmp_path_factory.mktemp("view") / "town", "market-town")


@pytest.fixture
def town(plan: Path, tmp_path: Path) -> Path:
    """A copy of it."""
    return Path(shutil.copytree(plan, tmp_path / "town"))


@pytest.mark.parametrize(
    "words, says",
    [
        (("--from", "7:5"), "--from '7:5' is no time as 07:10 or 430"),
        (("--to", "07:60"), "--to '07:60' is no time as 07:10 or 430"),
        (("--from", "08:00", "--to", "07:00"), "--from has to be before --to"),
        (("--lines", "a"), "--lines 'a' are no ids as 1,2,5"),
        (("--path", "1,2,1"), "--path wants two or more stops, and none of them twice"),
        (("a", "b"), "3 folders are named, wanted one or two"),
    ],
)
def test_wrong_words(words: tuple[str, ...], says: str, plan: Path) -> None:
    ended = run("lintim-view", plan, *words)
    assert (ended.status, ended.out) == (2, [])
    assert ended.one_line() == f"lintim-view: {says}; see lintim-view --help"


def fault(ended: Ended) -> str:
    """The line of a fault of the command."""
    assert ended.status == 1
    return ended.one_line().removeprefix("lintim-view: ")


def test_faults_are_one_line(town: Path, tmp_path: Path) -> None:
    out = ("--out", tmp_path / "page.html")
    assert "line 9 is not driven; those driven are: 1, 2, 4, 5" in fault(
        run("lintim-view", town, *out, "--lines", "9")
    )
    assert fault(run("lintim-view", town, *out, "--path", "1,99")) == "--path: there is no stop 99"
    assert "no edge joins Station and Hospital" in fault(
        run("lintim-view", town, *out, "--path", "1,3")
    )
    assert "no such folder" in fault(run("lintim-view", tmp_path / "none", *out))
    assert "no regular file" in fault(run("lintim-view", town, "--out", tmp_path))
    (tmp_path / "file").touch()
    assert "cannot be written" in fault(run("lintim-view", town, "--out", tmp_path / "file/x.html"))
    with open(town / formats.TRIPS.name, "a") as file:
        file.write("999; 1; 8; 480; 1004; 6; 3; 494; 1\n")
    says = "delay-management/Events-expanded.giv has no event 999, which another file names"
    assert fault(run("lintim-view", town, *out)) == says
    (town / formats.EDGES.name).write_text("1; 2\n")
    assert "basis/Edge.giv row 1: wrong number of fields" in fault(run("lintim-view", town, *out))
    for folder, says in (("file", "is no folder"), ("file/in", "does not allow it")):
        assert says in fault(run("lintim-view", town, *out, "--svg", tmp_path / folder))
    assert not (tmp_path / "page.html").exists()


def test_a_missing_package_is_one_line(plan: Path) -> None:
    line = fault(run("lintim-view", plan, start=(*PYTHON, "-S")))
    assert line == "the package plotly is missing: apt install python3-plotly"


def test_links_and_devices_are_left_alone(plan: Path, tmp_path: Path) -> None:
    (tmp_path / "there").mkdir()
    (tmp_path / "way").symlink_to("there")
    assert run("lintim-view", plan, "--out", tmp_path / "way/page.html").status == 0
    assert (tmp_path / "there/page.html").is_file()
    assert "no regular file" in fault(run("lintim-view", plan, "--out", "/dev/null"))
    assert os.path.exists("/dev/null") and not os.path.isfile("/dev/null")
