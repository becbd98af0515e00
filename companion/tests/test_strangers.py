"""Datasets of strangers: names that no screen or picture can show, files that are copied, and a
`lintim` that does not answer."""

import os
import shutil
import signal
import subprocess
import time
import xml.etree.ElementTree
from argparse import Namespace
from pathlib import Path

import pytest

from commands import BIN, PYTHON, environment, made, run
from conftest import EXAMPLES, Folders
from lintim_companion import dataset, formats, program
from lintim_companion.commands import concept, waits
from lintim_companion.faults import Refused, TooLong
from lintim_companion.gtfs.feed import Feed
from lintim_companion.manners import Talk, shown

pytestmark = pytest.mark.usefixtures("lintim")
FOLDERS = (
    b"bad\xff\xfename", b"two\nlines", "\u6771\u4eac".encode(), b"a;b\"'$(x)`y`", b"n" * 240,
    b"\x1b[31mred", b"...",
)  # fmt: skip
NAMES = {
    "3,000 letters": "x" * 3000,
    "control signs": "a\x01\x02\x1b[31m\x07b\x7f\x85",
    "Japanese": "\u6771\u4eac\u99c5",
    "emoji": "\U0001f689",
    "Tamil": "\u0ba4\u0bae\u0bbf\u0bb4\u0bcd",
    "no characters": "a\ufffe\uffffb",
    "formula": "$\\frac{a}{b}$",
    "markup": "</script><b>&",
    "turned": "\u202eabc",
}
EACH = (
    "lintim-concept {} --seconds 5",
    "lintim-timetable {} --seconds 5",
    "lintim-schedule {}",
    "lintim-waits {} 10 --seconds 5",
    "lintim-gtfs export {} {}/feed.zip --place 53,10",
    "lintim-demand gravity {} --replace",
    "lintim-view {} --out {}/page.html",
    "lintim-why {}",
)


def called(words: str, folder: bytes, **more: str) -> "subprocess.CompletedProcess[bytes]":
    """Runs a command over a folder of any name."""
    name, *others = words.split()
    said: list[str | bytes] = [*PYTHON, str(BIN / name)]
    said += [word.encode().replace(b"{}", folder) for word in others]
    return subprocess.run(said, capture_output=True, cwd="/", env=environment(**more))


@pytest.mark.parametrize("name", FOLDERS)
def test_a_folder_may_have_any_name(name: bytes, example: Folders, tmp_path: Path) -> None:
    folder = os.path.join(os.fsencode(tmp_path), b"of", name)
    shutil.copytree(made(example("three-stops")), os.fsdecode(folder))
    for words in EACH:
        ended = called(words, folder, LC_ALL="C")
        assert (ended.returncode, ended.stderr) == (int("why" in words), b""), (words, ended)
        assert all(it >= 32 or it == 10 for it in ended.stdout), (words, ended.stdout)
        prefix = words.split()[0].removeprefix("lintim-").encode()
        starts = (prefix + b": ", b"why: ", b"try: ", b"lintim make ends with: ")
        assert all(line.startswith(starts) for line in ended.stdout.splitlines()), ended.stdout


@pytest.mark.parametrize("name", NAMES)
def test_stops_may_have_any_names(name: str, tmp_path: Path) -> None:
    for module in ("plotly", "matplotlib", "networkx"):
        pytest.importorskip(module)
    folder = Path(shutil.copytree(EXAMPLES / "three-stops", tmp_path / "town"))
    rows = dataset.read(folder)[formats.STOPS]
    dataset.write(folder, formats.STOPS, [row._replace(long_name=NAMES[name]) for row in rows])
    made(folder)
    out, svg, png = (tmp_path / it for it in ("page.html", "svg", "png"))
    ended = run("lintim-view", folder, "--out", out, "--svg", svg, "--png", png)
    assert (ended.status, ended.err) == (0, [])
    is_lacking = any("are not in the font of png" in line for line in ended.out)
    if name != "turned":  # some fonts have a sign for it
        assert is_lacking == (name in ("Japanese", "emoji", "Tamil")), ended.out
    for path in svg.iterdir():
        xml.etree.ElementTree.parse(path)
    page = out.read_text()
    assert NAMES["markup"] not in page and "\x1b" not in page
    assert run("lintim-gtfs", "export", folder, tmp_path / "f.zip", "--place", "53,10").status == 0
    assert "stops.txt" in Feed(tmp_path / "f.zip")


def test_a_line_is_one_line_and_has_an_end() -> None:
    assert shown("a\x1b[31m\nb\u202e") == "a\\x1b[31m\\nb\\u202e"
    assert shown("x" * 9000).endswith(" .. and 4000 characters more")
    assert shown("M\u00fcller \u6771\u4eac \ud800") == "M\u00fcller \u6771\u4eac \ud800"


def listing(tmp_path: Path) -> tuple[Path, Path]:
    """A `lintim` that tells which settings lie where it runs, and how much room all takes."""
    script, log = tmp_path / "listing", tmp_path / "log"
    script.write_text(
        f"#!/bin/sh\n(ls basis/*.cnf; du -sk .) > '{log}'\nexec {program.find()} \"$@\"\n"
    )
    script.chmod(0o755)
    return script, log


def test_why_copies_what_is_included_and_no_more(example: Folders, tmp_path: Path) -> None:
    folder = example("market-town")
    for name, text in (("a", "include; b.cnf\n"), ("b", "# b\n"), ("c", "# c\n"), ("d", "# d\n")):
        (folder / f"basis/{name}.cnf").write_text(text)
    with open(folder / "basis/Config.cnf", "a") as file:
        file.write("\ninclude; a.cnf\ninclude_if_exists; d.cnf\ninclude_if_exists; e.cnf\n")
    script, log = listing(tmp_path)
    run("lintim-why", folder, LINTIM=str(script))
    seen = log.read_text().split()
    assert seen[:4] == [f"basis/{name}.cnf" for name in ("Config", "a", "b", "d")]


def test_a_file_of_holes_takes_no_room(example: Folders, tmp_path: Path) -> None:
    folder = example("market-town")
    with open(folder / "basis/Config.cnf", "a") as file:
        file.write("\ninclude; a.cnf\n")
    for name in (
        "basis/a.cnf",
        "basis/Stop.giv",
        "basis/OD.giv",
        "delay-management/Event-delays.giv",
    ):
        with open(folder / name, "ab") as file:
            file.truncate(60 << 20)
            file.seek(0, os.SEEK_END)
            file.write(b"# the end\n")
    script, log = listing(tmp_path)
    ended = run("lintim-why", folder, LINTIM=str(script))
    assert ended.status == 1 and ended.out and not ended.err
    assert int(log.read_text().split()[-2]) < 1000


HANGING = "#!/bin/sh\nexec sleep 1000\n"


def hanging(tmp_path: Path) -> str:
    path = tmp_path / "hanging"
    path.write_text(HANGING)
    path.chmod(0o755)
    return str(path)


ASK_NOBODY = ("lintim-view", "lintim-demand")  # do not start `lintim`


@pytest.mark.parametrize("words", [it for it in EACH if not it.startswith(ASK_NOBODY)])
def test_signals_hold_where_lintim_hangs(words: str, example: Folders, tmp_path: Path) -> None:
    folder = made(example("three-stops"))
    name, *others = (word.replace("{}", str(folder)) for word in words.split())
    said = [*PYTHON, str(BIN / name), *others]
    process = subprocess.Popen(
        said, stderr=subprocess.PIPE, env=environment(LINTIM=hanging(tmp_path)), text=True
    )
    deadline = time.monotonic() + 60
    children = Path(f"/proc/{process.pid}/task/{process.pid}/children")
    while not (found := children.read_text().split()) and time.monotonic() < deadline:
        time.sleep(0.02)
    time.sleep(0.1)
    process.send_signal(signal.SIGTERM)
    err = process.communicate(timeout=60)[1]
    assert process.returncode == 143 and err.startswith(f"{name}: stopped before anything")
    assert found and not any(Path(f"/proc/{it}").exists() for it in found)


def test_seconds_hold_where_lintim_hangs(
    example: Folders, tmp_path: Path, monkeypatch: pytest.MonkeyPatch
) -> None:
    folder = made(example("three-stops"))
    monkeypatch.setenv("LINTIM", hanging(tmp_path))
    monkeypatch.setattr(program, "GRACE", 0.3)
    monkeypatch.setattr(program, "_end", [])
    program.give(0.1)
    with pytest.raises(Refused, match="hanging status gave no answer in 0 seconds; --seconds"):
        program.states(folder)


@pytest.mark.long
@pytest.mark.parametrize("words", [it for it in EACH if "--seconds" in it])
def test_seconds_hold_for_each_command(words: str, example: Folders, tmp_path: Path) -> None:
    folder = made(example("three-stops"))
    script = hanging(tmp_path)
    ended = called(words.replace("--seconds 5", "--seconds 1"), os.fsencode(folder), LINTIM=script)
    assert ended.returncode == 1
    assert ended.stderr.endswith(b"status gave no answer in 10 seconds; --seconds allows more\n")


# The words of the other models, of which none is said.
OTHER_WORDS = dict.fromkeys(concept.OTHERS)


def test_a_tree_is_no_longer_than_lintim_reads_it(
    example: Folders, monkeypatch: pytest.MonkeyPatch, capsys: pytest.CaptureFixture[str]
) -> None:
    folder = made(example("three-stops"))  # whose concept has 75 bytes, and its tree 90
    monkeypatch.setattr(dataset, "MAX_HAND_BYTES", 80)
    words = Namespace(
        folder=folder,
        seconds=60,
        penalty=10,
        nodes=50_000,
        model="cost",
        passengers=False,
        compare=False,
        **OTHER_WORDS,
    )
    assert concept.run(words, Talk("lintim-concept")) == 0
    said = capsys.readouterr().out
    assert "concept: the tree is not written: pinned/Line-Concept.cert would have" in said
    assert (folder / "pinned/Line-Concept.lin").exists()
    assert not (folder / "pinned/Line-Concept.cert").exists()
    folder = words.folder = made(example("market-town"))
    with pytest.raises(TooLong, match="waiting/Waits.cert would have .* and lintim reads"):
        waits.run(words, Talk("lintim-waits"))
    assert not (folder / "waiting/Waits.cert").exists()


def test_a_fault_of_the_system_is_one_line(monkeypatch: pytest.MonkeyPatch, tmp_path: Path) -> None:
    """The folder where one stands is gone."""
    place = tmp_path / "gone"
    place.mkdir()
    said = [*PYTHON, str(BIN / "lintim-view"), ".", "--out", "x.html"]
    script = 'cd "$1" && rmdir "$1" && shift && exec "$@"'
    ended = subprocess.run(
        ["sh", "-c", script, "sh", str(place), *said], capture_output=True, text=True
    )
    assert ended.returncode == 1 and len(ended.stderr.splitlines()) == 1
    assert "fault of this command" not in ended.stderr
