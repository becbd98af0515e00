"""Usual mistakes, each as an edit of a good dataset, a town of 12 stops; what is to be said of each
stands in `data/why.txt`."""

import os
from collections.abc import Callable
from pathlib import Path
from typing import NamedTuple

STOP, EDGE, OD, POOL, CONFIG = (
    f"basis/{name}" for name in ("Stop.giv", "Edge.giv", "OD.giv", "Pool.giv", "Config.cnf")
)
LOAD = "basis/Load.giv"
LATE = "delay-management/Event-delays.giv"
Edit = Callable[[Path], object]


class Mistake(NamedTuple):
    """A mistake: its name, the edit, words of `lintim`, the folder below in which one stands, and
    whether the dataset is made before it."""

    name: str
    edit: Edit | None = None
    words: str = "make"
    below: str = "."
    is_made: bool = False


def put(name: str, data: bytes | str) -> Edit:
    """Another text of a file."""

    def edit(folder: Path) -> None:
        path = folder / name
        path.parent.mkdir(parents=True, exist_ok=True)
        path.write_bytes(data if isinstance(data, bytes) else data.encode())

    return edit


def every(name: str, how: Callable[[bytes], bytes]) -> Edit:
    """A change of all bytes of a file."""
    return lambda folder: (folder / name).write_bytes(how((folder / name).read_bytes()))


def swap(name: str, old: str, new: str | bytes, times: int = 1) -> Edit:
    """Another text in the place of one that stands in a file."""

    def edit(folder: Path) -> None:
        data, it = (folder / name).read_bytes(), new if isinstance(new, bytes) else new.encode()
        assert old.encode() in data, (name, old)
        (folder / name).write_bytes(data.replace(old.encode(), it, times))

    return edit


def add(name: str, rows: str) -> Edit:
    """Rows more at the end of a file."""
    return every(name, lambda data: data + rows.encode())


def key(name: str, value: object) -> Edit:
    """A row more in the settings."""
    return add(CONFIG, f"{name}; {value}\n")


def move(old: str, new: str) -> Edit:
    """Another name of a file."""

    def edit(folder: Path) -> None:
        (folder / new).parent.mkdir(parents=True, exist_ok=True)
        os.rename(folder / old, folder / new)

    return edit


def remove(name: str) -> Edit:
    """A file goes."""
    return lambda folder: (folder / name).unlink()


def all_of(*edits: Edit) -> Edit:
    """Several edits."""
    return lambda folder: [edit(folder) for edit in edits]


def link(name: str, to: str) -> Edit:
    """A link in the place of a file."""

    def edit(folder: Path) -> None:
        os.rename(folder / name, folder / to)
        (folder / name).symlink_to(Path("..", to))

    return edit


def folder_of(name: str) -> Edit:
    """A folder in the place of a file."""

    def edit(folder: Path) -> None:
        (folder / name).unlink()
        (folder / name).mkdir()

    return edit


def _columns(count: int) -> Callable[[bytes], bytes]:
    return lambda data: b"".join(
        b";".join(line.split(b";")[:count]) + b"\n" for line in data.split(b"\n") if line
    )


def wide(data: bytes) -> bytes:
    """The bytes of a text as Unicode text of a spreadsheet."""
    return b"\xff\xfe" + data.decode().encode("utf-16-le")


CELLS = (
    Mistake("good dataset"),
    Mistake("wrong stop id in Edge (stop 99)", swap(EDGE, "4; 3; 6;", "4; 3; 99;")),
    Mistake("wrong stop id in OD", swap(OD, "12; 3; 18", "21; 3; 18")),
    Mistake("wrong edge id in Pool", add(POOL, "9; 1; 77\n")),
    Mistake("decimal comma in length (1,1)", swap(EDGE, "1; 1; 2; 1.1;", "1; 1; 2; 1,1;")),
    Mistake("decimal commas in all of Edge", every(EDGE, lambda it: it.replace(b".", b","))),
    Mistake("thousands point in customers (1.200)", swap(OD, "1; 3; 120", "1; 3; 1.200")),
    Mistake("header without # in Stop", swap(STOP, "# stop-id", "stop-id")),
    Mistake("header without # in OD", swap(OD, "# from", "from")),
    Mistake("no header at all", every(EDGE, lambda it: it.split(b"\n", 1)[1])),
    Mistake("byte order mark", every(EDGE, lambda it: b"\xef\xbb\xbf" + it)),
    Mistake("byte order mark in Config", put(CONFIG, b"\xef\xbb\xbfperiod_length; 30\n")),
    Mistake("UTF-16 with a mark (Unicode text)", every(EDGE, wide)),
    Mistake("Latin-1 names", every(STOP, lambda it: it.decode().encode("latin-1"))),
    Mistake(
        "Windows line ends in all files",
        all_of(
            *(every(it, lambda it: it.replace(b"\n", b"\r\n")) for it in (STOP, EDGE, OD, POOL))
        ),
    ),
    Mistake("CR only in OD", every(OD, lambda it: it.replace(b"\n", b"\r"))),
    Mistake("CR only in Edge", every(EDGE, lambda it: it.replace(b"\n", b"\r"))),
    Mistake("tabs for semicolons", every(EDGE, lambda it: it.replace(b"; ", b"\t"))),
    Mistake("commas for semicolons", every(EDGE, lambda it: it.replace(b"; ", b", "))),
    Mistake("empty Stop", put(STOP, "")),
    Mistake("empty Edge", put(EDGE, "")),
    Mistake("empty OD", put(OD, "")),
    Mistake("empty Pool", put(POOL, "")),
    Mistake("huge demand", swap(OD, "1; 3; 120", "1; 3; 1000000000000")),
    Mistake("frequency over its limit", swap(OD, "1; 3; 120", "1; 3; 70000")),
    Mistake("negative demand", swap(OD, "1; 3; 120", "1; 3; -120")),
    Mistake("1e3 customers", swap(OD, "1; 3; 120", "1; 3; 1e3")),
)
SETTINGS = (
    Mistake("misspelt key periodlength", key("periodlength", 30)),
    Mistake("key in the wrong case", key("Period_Length", 30)),
    Mistake("key = value", add(CONFIG, "period_length = 30\n")),
    Mistake("value with a unit", key("period_length", "30 min")),
    Mistake("time as 07:00", key("DM_earliest_time", "07:00")),
    Mistake("time in seconds", key("DM_earliest_time", 25200)),
    Mistake("day over midnight", all_of(key("DM_earliest_time", 1320), key("DM_latest_time", 120))),
    Mistake("load_source; OD", key("load_source", "OD")),
    Mistake("last_stage; line", key("last_stage", "line")),
    Mistake("greatest change below the least", key("ean_default_maximal_change_time", 2)),
    Mistake("greatest wait below the least", key("ean_default_minimal_waiting_time", 5)),
    Mistake("vehicle capacity 0", key("gen_passengers_per_vehicle", 0)),
    Mistake("pin_concept without file", key("pin_concept", "yes")),
    Mistake("pin_concept; true", key("pin_concept", "true")),
    Mistake("include of another folder", key("include", "../x.cnf")),
    Mistake("include with another ending", all_of(key("include", "x.CNF"), put("basis/x.cnf", ""))),
    Mistake("load_spread 0", key("load_spread", 0)),
    Mistake("changes of at most 20 minutes", key("ean_default_maximal_change_time", 20)),
)
ROWS = (
    Mistake("least minutes 0", swap(EDGE, "2; 2; 3; 0.5; 2; 3", "2; 2; 3; 0.5; 0; 3")),
    Mistake("bounds crossed", swap(EDGE, "2; 2; 3; 0.5; 2; 3", "2; 2; 3; 0.5; 3; 2")),
    Mistake("minutes with a fraction", swap(EDGE, "2; 2; 3; 0.5; 2; 3", "2; 2; 3; 0.5; 2.5; 3")),
    Mistake("repeated stop id", add(STOP, "3; X; X; 0; 0\n")),
    Mistake("edge from a stop to itself", add(EDGE, "17; 3; 3; 1; 2; 3\n")),
    Mistake("no coordinates in Stop", every(STOP, _columns(3))),
    Mistake("name with a semicolon in quotes", swap(STOP, "Markt", '"Markt; Altstadt"')),
    Mistake("name with #", swap(STOP, "Markt", "Markt #1")),
    Mistake(
        "stop that no edge reaches", all_of(add(STOP, "13; X; X; 0; 0\n"), add(OD, "1; 13; 5\n"))
    ),
    Mistake("pool: order from 0", put(POOL, "1; 0; 1\n1; 1; 2\n")),
    Mistake("pool: stops for edges", put(POOL, "1; 1; 1\n1; 2; 3\n")),
    Mistake("pool: an edge twice", put(POOL, "1; 1; 1\n1; 2; 1\n")),
    Mistake("pool: one line, edges uncovered", put(POOL, "1; 1; 1\n1; 2; 2\n")),
    Mistake("pool with a column of costs", put(POOL, "1; 1; 1; 10\n")),
    Mistake("no-break space in a cell", swap(EDGE, "1; 1; 2; 1.1;", b"1; 1; 2;\xc2\xa01.1;")),
    Mistake("a row of totals", add(OD, "Summe; ; 1000\n")),
    Mistake("empty columns at the end", every(OD, lambda it: it.replace(b"\n", b";;;\n"))),
    Mistake("OD as a matrix", put(OD, "0;120;90\n110;0;45\n95;50;0\n")),
)
FILES = (
    Mistake("file in the wrong case", move(STOP, "basis/stop.giv")),
    Mistake(
        "files not in basis",
        all_of(*(move(it, os.path.basename(it)) for it in (STOP, EDGE, OD, POOL, CONFIG))),
    ),
    Mistake("run inside basis", below="basis"),
    Mistake("run in an empty folder", lambda folder: (folder / "e").mkdir(), below="e"),
    Mistake("delay of an unknown event", put(LATE, "999999; 5\n")),
    Mistake("delay in seconds", put(LATE, "3; 300\n")),
    Mistake("negative delay", put(LATE, "3; -2\n")),
    Mistake("delay file in basis", move(LATE, "basis/Event-delays.giv")),
    Mistake("delay file misnamed", move(LATE, "delay-management/Events-delays.giv")),
    Mistake("Edge is a link", link(EDGE, "e")),
    Mistake("Edge is a folder", folder_of(EDGE)),
)
WORDS = (
    Mistake("folder as a word: make .", words="make ."),
    Mistake("--help", words="--help"),
    Mistake("help", words="help"),
    Mistake("--version", words="--version"),
    Mistake("no words", words=""),
    Mistake("misspelt: mkae", words="mkae"),
    Mistake("check before make", words="check"),
    Mistake("status before make", words="status"),
    Mistake("pool with names", words="pool HBF FLU"),
    Mistake("pool with one stop", words="pool 1"),
    Mistake("pool with an unknown stop", words="pool 1 99"),
    Mistake("journey with 07:00", words="journey 1 9 07:00 planned", is_made=True),
    Mistake("journey without a mode", words="journey 1 9 420", is_made=True),
    Mistake("journey before make", words="journey 1 9 420 planned"),
    Mistake("journey to an unknown stop", words="journey 1 99 420 planned", is_made=True),
    Mistake("waits before make", words="waits 10 1000"),
    Mistake("waits beyond the budget", words="waits 1 20001", is_made=True),
    Mistake("check-waits without a file", words="check-waits 10", is_made=True),
)
USUAL = (*CELLS, *SETTINGS, *ROWS, *FILES, *WORDS)
