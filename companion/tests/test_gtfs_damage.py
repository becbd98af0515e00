"""Damaged feeds are taken or refused with a reason, and never end with a traceback."""

import random
from collections.abc import Callable
from pathlib import Path

import pytest

from gtfs_cases import run
from lintim_companion import program
from made_city import ON, Files, write
from made_feeds import FEEDS

pytestmark = pytest.mark.usefixtures("lintim")
Damage = Callable[[random.Random, Files], Files]


def _one(chance: random.Random, files: Files) -> str:
    return chance.choice(sorted(files))


def cut(chance: random.Random, files: Files) -> Files:
    """A file that ends early."""
    name = _one(chance, files)
    return files | {name: files[name][: chance.randrange(len(files[name]) or 1)]}


def bytes_changed(chance: random.Random, files: Files) -> Files:
    """Bytes of a file by chance."""
    name = _one(chance, files)
    data = bytearray(files[name])
    for _ in range(chance.randint(1, 30)):
        if data:
            data[chance.randrange(len(data))] = chance.choice(b'",\n\r\0;-:/9xz\xff\xc3 ')
    return files | {name: bytes(data)}


def file_gone(chance: random.Random, files: Files) -> Files:
    """A file that is not there."""
    gone = _one(chance, files)
    return {name: data for name, data in files.items() if name != gone}


def cells_changed(chance: random.Random, files: Files) -> Files:
    """Cells of a file that hold something else."""
    name = _one(chance, files)
    rows = files[name].decode("latin-1").split("\r\n")
    strange = (
        "",
        "-1",
        "99:99:99",
        "1e9",
        "x" * 50,
        "0",
        "26:00:00",
        "999999999999",
        '"',
        "a,b",
        "NaN",
        "٣",
        "20261301",
        "-0",
        "inf",
        "4",
        "2",
    )
    for _ in range(chance.randint(1, 8)):
        at = chance.randrange(len(rows))
        cells = rows[at].split(",")
        cells[chance.randrange(len(cells))] = chance.choice(strange)
        rows[at] = ",".join(cells)
    return files | {name: "\r\n".join(rows).encode("latin-1", "replace")}


def rows_moved(chance: random.Random, files: Files) -> Files:
    """Rows that come twice, in another order, or not."""
    name = _one(chance, files)
    rows = files[name].split(b"\r\n")
    chance.shuffle(rows) if chance.random() < 0.3 else None
    rows = [
        row for row in rows if chance.random() < 0.9 for row in [row] * chance.choice((1, 1, 2))
    ]
    return files | {name: b"\r\n".join(rows)}


def files_swapped(chance: random.Random, files: Files) -> Files:
    """A file under the name of another."""
    return files | {_one(chance, files): files[_one(chance, files)]}


def recoded(chance: random.Random, files: Files) -> Files:
    """A file in UTF-16, or with a mark in its middle."""
    name = _one(chance, files)
    text = files[name].decode("latin-1")
    code = chance.choice(("utf-16", "utf-32", "utf-8-sig"))
    return files | {name: text.encode(code) if chance.random() < 0.7 else 2 * text.encode(code)}


DAMAGES: tuple[Damage, ...] = (
    cut,
    bytes_changed,
    file_gone,
    cells_changed,
    rows_moved,
    files_swapped,
    recoded,
)


def damaged(seed: int, path: Path) -> Path:
    """A feed of those that cities make, with damages from a number, also to the zip file itself."""
    chance = random.Random(seed)
    files = FEEDS[chance.choice(sorted(FEEDS))]()
    for _ in range(chance.choice((1, 1, 2, 3))):
        files = chance.choice(DAMAGES)(chance, files)
    write(path, files)
    if chance.random() < 0.2:
        data = bytearray(path.read_bytes())
        for _ in range(chance.randint(1, 20)):
            data[chance.randrange(len(data))] = chance.randrange(256)
        path.write_bytes(bytes(data[: chance.choice((len(data), chance.randrange(len(data))))]))
    return path


def one_damaged(seed: int, place: Path, and_made: bool) -> str:
    """How import and check of a damaged feed end; both say a reason where they refuse."""
    feed, folder = damaged(seed, place / f"{seed}.zip"), place / str(seed)
    status, lines, fault = run("check", feed)
    assert status in (0, 1) and (lines or fault)
    status, lines, fault = run("import", feed, folder, "--date", ON)
    if status:
        assert fault and not lines and not folder.exists(), (seed, fault)
        return "refused"
    if and_made:
        answer = program.run(folder, "make")
        assert answer.status == 0, (seed, answer.out)
    return "taken"


def test_damaged_feeds_are_taken_or_refused(tmp_path: Path) -> None:
    ends = [one_damaged(seed, tmp_path, seed % 10 == 0) for seed in range(300)]
    assert min(ends.count("taken"), ends.count("refused")) > 50


@pytest.mark.long
def test_what_is_taken_of_300_damaged_feeds_is_made(tmp_path: Path) -> None:
    for seed in range(300):
        one_damaged(seed, tmp_path, and_made=True)
