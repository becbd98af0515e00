"""What starts `lintim`, in a checkout and as it is installed: it takes no files of another program,
and where all are its own nothing is as before."""

import re
import shutil
import subprocess
from pathlib import Path
from typing import Any

import checkouts
import pytest

from lintim_companion import formats, program
from lintim_companion.advice.lintim_told import others_made
from lintim_companion.cells import File
from lintim_companion.columns import header
from lintim_form import SCHEDULE, toy
from mistakes import put

HOME = checkouts.HOME
SCRIPT = HOME / "dist/others.sh"
pytestmark = [
    pytest.mark.usefixtures("lintim"),
    pytest.mark.skipif(not SCRIPT.exists(), reason="this is no checkout"),
]
MADE = [file for file in formats.FILES if file.stage]


@pytest.fixture(scope="module")
def starts(tmp_path_factory: pytest.TempPathFactory) -> list[Path]:
    """The script of a checkout, and what is installed."""
    it = checkouts.make(tmp_path_factory.mktemp("made"))
    prefix = tmp_path_factory.mktemp("installed") / "pre"
    words = [str(HOME / "install"), "--prefix", str(prefix), "--program", program.find()]
    ended = subprocess.run(words, capture_output=True, text=True, timeout=120)
    assert ended.returncode == 0, ended.stderr
    subprocess.run([it.top / "lintim", "demo", "1"], capture_output=True, timeout=120)
    return [it.top / "lintim", prefix / "bin/lintim"]


def call(start: Path, folder: Path, *words: str) -> "subprocess.CompletedProcess[str]":
    return subprocess.run([start, *words], cwd=folder, capture_output=True, text=True, timeout=120)


def files_of(folder: Path) -> dict[str, tuple[bytes, int]]:
    return {
        str(path): (path.read_bytes(), path.stat().st_mtime_ns)
        for path in folder.rglob("*")
        if path.is_file()
    }


@pytest.mark.parametrize("which", [0, 1])
def test_nothing_of_lintim_is_lost(which: int, starts: list[Path], tmp_path: Path) -> None:
    folder = toy(tmp_path / "there")
    before = files_of(tmp_path)
    for word in ("make", "fresh"):
        ended = call(starts[which], folder, word)
        assert (ended.returncode, ended.stdout) == (1, "")
        first, second = ended.stderr.splitlines()
        assert first.startswith(f"lintim: {word} would overwrite or remove files that lintim did")
        named = first.split(": ")[2].split(", ")
        assert named == [file.name for file in MADE if (folder / file.name).exists()]
        assert "lintim-convert in" in second and second.endswith(f"say lintim {word} --own once")
        assert files_of(tmp_path) == before
    for words in (["status"], ["check"], ["demo", "1"], ["make", "x"], ["--own"]):
        call(starts[which], folder, *words)
        assert files_of(tmp_path) == before
    ended = call(starts[which], folder, "make", "--own")
    assert ended.returncode == 3 and not (folder / SCHEDULE).exists()
    assert ended.stdout == "refused: basis/Config.cnf row 2: include outside the dataset\n"


@pytest.mark.parametrize("which", [0, 1])
def test_own_is_said_once(which: int, starts: list[Path], tmp_path: Path) -> None:
    folder = tmp_path / "town"
    shutil.copytree(HOME / "examples/market-town", folder)
    shutil.rmtree(folder / "keep", ignore_errors=True)
    put("timetabling/Timetable-periodic.tim", "# event; time of LinTim\n1; 5\n")(folder)
    assert call(starts[which], folder, "make").returncode == 1
    ended = call(starts[which], folder, "make", "--own")
    assert (ended.returncode, ended.stdout.splitlines()[-1]) == (0, "done")
    ended = call(starts[which], folder, "make")
    assert (ended.returncode, ended.stdout.splitlines()[-1], ended.stderr) == (0, "done", "")


@pytest.mark.parametrize("which", [0, 1])
@pytest.mark.parametrize("with_keep", [True, False])
def test_where_all_headers_are_ours_nothing_changes(
    which: int, with_keep: bool, starts: list[Path], tmp_path: Path
) -> None:
    folder = tmp_path / "town"
    shutil.copytree(HOME / "examples/market-town", folder)
    assert call(starts[which], folder, "make").returncode == 0
    if not with_keep:
        shutil.rmtree(folder / "keep")
    else:
        put("statistic/statistic.sta", "of another hand\n")(folder)
    ended = call(starts[which], folder, "make")
    assert (ended.returncode, ended.stdout.splitlines()[-1], ended.stderr) == (0, "done", "")
    answer = program.run(folder, "make")
    assert (ended.returncode, ended.stdout) == (answer.status, answer.out)


def test_the_first_lines_are_those_of_the_table_of_formats() -> None:
    text = SCRIPT.read_text().replace("\\\n", "")
    found = re.findall(r"see_made (\S+) +['\"](.*?)['\"]\n", text)
    assert [(name, re.sub(" +", " ", first)) for name, first in found] == [
        (file.name, header(file)) for file in sorted(MADE, key=_order)
    ]


def _order(file: File[Any]) -> int:
    names = re.findall(r"see_made (\S+)", SCRIPT.read_text())
    return names.index(file.name) if file.name in names else -1


def test_the_companion_sees_the_same_files(starts: list[Path], tmp_path: Path) -> None:
    folder = tmp_path / "town"
    shutil.copytree(HOME / "examples/market-town", folder)
    shutil.rmtree(folder / "keep", ignore_errors=True)
    for file in MADE:
        put(file.name, "# of another program\n1; 1\n")(folder)
        assert others_made(folder) == [file.name]
        assert call(starts[1], folder, "make").returncode == 1
        (folder / file.name).unlink()
    assert others_made(folder) == []


@pytest.mark.parametrize(
    "text", [b"", b"\x00\x00\n", b"\xff\xfe", b"no line end", b"# event-id; time\r\n"]
)
def test_whatever_the_first_line_is(text: bytes, starts: list[Path], tmp_path: Path) -> None:
    folder = tmp_path / "town"
    put("timetabling/Timetable-periodic.tim", text)(folder)
    ended = call(starts[1], folder, "make")
    assert ended.returncode == 1 and len(ended.stderr.splitlines()) == 2
    (folder / "timetabling/Timetable-periodic.tim").unlink()
    (folder / "timetabling/Timetable-periodic.tim").mkdir()
    assert call(starts[1], folder, "make").returncode in (3, 6)


def test_it_runs_no_other_program(tmp_path: Path) -> None:
    """The check is one of a shell without any tool on its PATH."""
    put("basis/Pool-Cost.giv", "x\n")(tmp_path)
    for shell in ("/bin/sh", "/bin/bash"):
        script = f'PATH=/nowhere; . "{SCRIPT}"; see_others make; echo reached'
        ended = subprocess.run(
            [shell, "-c", script], cwd=tmp_path, capture_output=True, text=True, timeout=60
        )
        assert (ended.returncode, ended.stdout) == (1, "") and "would overwrite" in ended.stderr
        script = script.replace("make", "status")
        ended = subprocess.run(
            [shell, "-c", script], cwd=tmp_path, capture_output=True, text=True, timeout=60
        )
        assert (ended.returncode, ended.stdout, ended.stderr) == (0, "reached\n", "")
