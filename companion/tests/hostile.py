"""Datasets that are made from a number and then spoiled: bytes changed, left out and doubled, lines
moved, files cut, recoded, misnamed, emptied, or in the place of one another, links and folders. The
same number gives the same bytes."""

import os
import random
import shutil
from collections.abc import Callable
from pathlib import Path

import seeded

ODD_CELLS = (
    "", "-1", "0", "1e9", "99999999999999999999999", "1,5", "1.500", "07:00", "01.02.2026", "NaN",
    "\u00a05", "\u0663", "9" * 400, "`x`", "; ;", "#", '"', "\x00", "x" * 5000, "<",
    "TRIP", "\ud800",
)  # fmt: skip
ODD_ROWS = (
    "include; Config.cnf", "include; ../x.cnf", "include; \x00.cnf", "period_length; 0", "a; b; c",
    "ean_headway; 30", "load_spread; 0", "concept_budget; 1", "timetable_budget; 1", ";;;;;", "\t",
    "pin_concept; yes", "pin_vehicles; yes", "pin_timetable; yes", "last_stage; concept", "=",
    "DM_latest_time; 10080", "gen_passengers_per_vehicle; 1", "periodlength; 5", "1" + "; 1" * 3000,
    "ean_default_maximal_change_time; 3", "load_source; file", "load_source; od", "Summe; ; 5",
)  # fmt: skip
NAMES = (
    "basis/stop.giv", "basis/Edges.giv", "Event-delays.giv", "basis/OD.giv.txt", "pinned/x.giv",
    "pinned/Line-Concept.lin", "pinned/Timetable-periodic.tim", "pinned/Vehicle_Schedules.vs",
    "waiting/Waits.cert", "delay-management/Event-delays.giv", "basis/more.cnf", "basis/Load.giv",
    "delay-management/Events-expanded.giv", "timetabling/Events-periodic.giv", "basis/\u00fc.cnf",
)  # fmt: skip
Spoil = Callable[[random.Random, bytes], bytes]


def _bytes(chance: random.Random, data: bytes) -> bytes:
    """Some bytes are others."""
    spoiled = bytearray(data)
    for _ in range(chance.randint(1, 8)):
        if spoiled:
            spoiled[chance.randrange(len(spoiled))] = chance.choice(
                b'\x00\r\n;#",\t \xff\xc3' + b"09-.x"
            )
    return bytes(spoiled)


def _lines(chance: random.Random, data: bytes) -> bytes:
    """Lines are left out, doubled, and in another order."""
    lines = data.split(b"\n")
    for _ in range(chance.randint(1, 4)):
        at = chance.randrange(len(lines))
        others: tuple[list[bytes], ...] = ([], [lines[at]] * 2, [b""], [lines[at], b"", b"\r"])
        lines[at : at + 1] = chance.choice(others)
        lines = lines or [b""]
    if chance.random() < 0.3:
        chance.shuffle(lines)
    return b"\n".join(lines)


def _cells(chance: random.Random, data: bytes) -> bytes:
    """Cells are odd ones."""
    lines = [line.split(b";") for line in data.split(b"\n")]
    for _ in range(chance.randint(1, 3)):
        cells = chance.choice(lines)
        odd = chance.choice(ODD_CELLS).encode("utf-8", "surrogatepass")
        cells[chance.randrange(len(cells))] = odd
    return b"\n".join(b";".join(cells) for cells in lines)


def _rows(chance: random.Random, data: bytes) -> bytes:
    """Rows more."""
    rows = [row.encode() for row in chance.choices(ODD_ROWS, k=chance.randint(1, 3))]
    at = chance.choice((0, len(data)))
    return data[:at] + b"\n".join([b"", *rows, b""]) + data[at:]


def _whole(chance: random.Random, data: bytes) -> bytes:
    """Another text at all, or in another form."""
    text = data.decode("utf-8", "replace")
    forms = (
        b"", b"\xef\xbb\xbf" + data, text.encode("utf-16"), text.encode("utf-16-le"), data[::-1],
        data.replace(b"\n", b"\r"), data.replace(b";", b","), data.replace(b";", b"\t"),
        data[: chance.randrange(len(data) + 1)], data * 2, b"\x00" * 50, chance.randbytes(300),
        b"# nothing\n", b"PK\x03\x04" + data, data.replace(b".", b","), b"\n" * 50 + data,
    )  # fmt: skip
    return chance.choice(forms)


KINDS: tuple[Spoil, ...] = (_bytes, _lines, _cells, _cells, _rows, _rows, _whole)


def write(folder: Path, seed: int) -> Path:
    """Writes the spoiled dataset of a number."""
    chance = random.Random(f"hostile {seed}")
    files = seeded.dataset(seed, chance.choice((3, 5, 9)))
    if chance.random() < 0.5:
        files.update(seeded.delays(seed, chance.randint(0, 60), chance.randint(0, 90)))
    for _ in range(chance.choice((1, 1, 2, 4))):
        name = chance.choice(sorted(files))
        files[name] = chance.choice(KINDS)(chance, files[name])
    if chance.random() < 0.3:
        name = chance.choice(sorted(files))
        files[chance.choice(NAMES)] = files.pop(name) if chance.random() < 0.5 else files[name]
    seeded.write(folder, files)
    if chance.random() < 0.2:
        _in_the_place(chance, folder, chance.choice(sorted(files)))
    return folder


def _in_the_place(chance: random.Random, folder: Path, name: str) -> None:
    """What is no file stands in the place of one, or of its folder."""
    path = folder / name
    kind = chance.randrange(6)
    if kind == 0:
        path.unlink()
        path.mkdir()
    elif kind == 1:
        path.rename(folder / "elsewhere")
        path.symlink_to("../elsewhere")
    elif kind == 2:
        path.unlink()
        path.symlink_to("nowhere")
    elif kind == 3:
        path.unlink()
        os.mkfifo(path)
    elif kind == 4:
        path.parent.rename(folder / "moved")
        path.parent.symlink_to("moved")
    else:
        shutil.rmtree(path.parent)
        path.parent.write_text("a file in the place of the folder")
