"""Trials of commands by chance: damaged datasets and feeds, strange names and words, and strange
surroundings. Each trial runs in a process of its own, forked from one that has loaded everything, so
that it is quick; what it may do is judged afterwards."""

import contextlib
import os
import random
import resource
import shutil
import signal
import sys
import time
import traceback
from collections.abc import Callable
from pathlib import Path
from typing import NamedTuple

import hostile
import seeded
from commands import BIN, PYTHON
from lintim_companion import manners, program
from lintim_companion.registry import COMMANDS
from test_gtfs_damage import damaged

GIGABYTE = 10**9
LONGEST = 300.0  # seconds after which a trial hangs
MAY_WRITE = ("pinned", "waiting", "keep", "passengers")
FOLDERS = (
    b"town", b"new\nline", b"bad\xff\xfe", "\u6771\u4eac".encode(), b"a b;c'd\"$(x)", b"-x",
    b"n" * 200, b"\x1b[31m", b"#", b"...", "e\u0301\u202e".encode(), b"%s%n{}", b"~",
)  # fmt: skip
WORDS = {
    "lintim-concept": (
        "{} --seconds 3", "{}", "{} --seconds 0", "{} --seconds x", "{} --model time --seconds 3",
        "{} --model direct --seconds 3 --budget 110", "{} --model both --seconds 3 --points 2",
        "{} --model both --seconds 2 --table {out}/t.csv --picture {out}/p.svg",
    ),
    "lintim-pool": (
        "{} --replace --seconds 3", "{} --method trees --replace --seconds 2", "{} --terminals 1,2",
        "{} --method paths --terminals 1,2,3 --lines 5 --replace --seconds 2", "{} --terminals x",
    ),
    "lintim-timetable": (
        "{} --seconds 3", "{} --seconds 3 --changes 5", "{} --seconds 2 --for-passengers",
        "{} --seconds 2 --few-vehicles", "{} --weights {}/basis/Edge.giv --seconds 2",
        "{} --changes 1000001", "{} --change-penalty 5 --seconds 2 --for-passengers",
    ),
    "lintim-convert": (
        "out {} {out}/lintim", "in {} {out}/new", "judge {}", "in {}/basis {out}/new",
        "out {} {}", "in {out} {out}/new",
    ),
    "lintim-schedule": (
        "{}", "{}/basis", "{}/none", "{} --line-based", "{} --costs {}/basis/Config.cnf",
    ),
    "lintim-passengers": (
        "{}", "{} --disposed", "{} --capacity 70 --penalty 5", "{} --profile {}/basis/Edge.giv",
        "{} --capacity 0", "{} --disposed --profile {out}/none",
    ),
    "lintim-waits": ("{} 10 --seconds 3", "{} 0 --seconds 2 --nodes 5", "{} 1000000 --seconds 2"),
    "lintim-gtfs": (
        "export {} {out}/f.zip", "export {} {out}/f.zip --place 53,10", "check {feed}",
        "import {feed} {out}/new --date 20260105", "check {}/basis/Stop.giv", "import {feed} {out}/new",
        "import {feed} {out}/new --date 20260105 --area 40,0,60,20 --from 07:00 --to 09:00",
        "export {} {out}/f.zip --disposed --place 53,10", "check {feed} --seconds 1 --memory 100",
        "import {feed} {} --date 20260105", "export {feed} {out}/x", "check {}",
    ),
    "lintim-demand": (
        "gravity {}", "gravity {} --people {}/basis/Load.giv", "counts {} --counts {}/basis/OD.giv",
        "gravity {} --replace --customers 500 --slice 8", "matrix {} --matrix {}/basis/OD.giv",
        "matrix {} --matrix {}/basis/OD.giv --zones {}/basis/OD.giv --replace", "counts {}",
    ),
    "lintim-view": (
        "{} --out {out}/page.html", "{} --out {out}/page.html --svg {out}/svg",
        "{} {} --out {out}/page.html", "{} --out {out}/page.html --png {out}/png --beside",
        "{} --out {out}/no/such/page.html --from 07:00 --to 08:00", "{} --lines 1,2 --out {out}/p",
        "{} --path 1,2 --out {out}/p", "{} --out {}", "{} --lines 1 --path 1,1 --out {out}/p",
    ),
    "lintim-why": ("{} --seconds 5", "{} make --seconds 3", "{} journey 1 2 07:00 --seconds 3",
                   "{} check --seconds 3", "{} x y --seconds 2", "{} pool 2 --seconds 2"),
}  # fmt: skip
Surround = Callable[[random.Random, Path], None]


class End(NamedTuple):
    """How a trial ended: its exit status, or the signal less than 0; what it printed; and the
    bytes of memory that it took."""

    status: int
    out: bytes
    err: bytes
    memory: int


def _text(*names: str) -> Callable[[random.Random, Path], None]:
    def change(chance: random.Random, _: Path) -> None:
        os.environ[chance.choice(names)] = chance.choice(
            ("", ".", "x", "0", "\udcff", "C", "/none")
        )

    return change


def _closed(chance: random.Random, _: Path) -> None:
    os.close(chance.choice((0, 1, 2)))


def _full(chance: random.Random, _: Path) -> None:
    full = os.open("/dev/full", os.O_WRONLY)
    os.dup2(full, chance.choice((1, 2)))


def _pipe(chance: random.Random, _: Path) -> None:
    """Nobody reads what is printed."""
    reads, writes = os.pipe()
    os.close(reads)
    os.dup2(writes, chance.choice((1, 2)))


def _liar(chance: random.Random, top: Path) -> None:
    """A `lintim` that says something else, or nothing."""
    path = top / "liar"
    says = ("exit 0", "echo 'load: kept'", "kill -9 $$", "printf '\\377\\n'; exit 1", "exit 6",
            "yes | head -c 100000", "echo; echo ::; echo done", "echo 'refused: x'; exit 4")  # fmt: skip
    path.write_text(f"#!/bin/sh\n{chance.choice(says)}\n")
    path.chmod(0o755)
    os.environ["LINTIM"] = str(path)


def _limits(chance: random.Random, _: Path) -> None:
    kind, value = chance.choice(
        ((resource.RLIMIT_FSIZE, 2000), (resource.RLIMIT_NOFILE, 12), (resource.RLIMIT_CORE, 0),
         (resource.RLIMIT_AS, 2 * GIGABYTE), (resource.RLIMIT_FSIZE, 0))
    )  # fmt: skip
    resource.setrlimit(kind, (value, value))


def _scratch(chance: random.Random, top: Path) -> None:
    """No folder for files of a while, or none that can be written."""
    os.environ["TMPDIR"] = str(top / chance.choice(("no such", "file")))
    (top / "file").write_text("")


def _gone(_: random.Random, top: Path) -> None:
    """The folder where one stands is gone."""
    (top / "gone").mkdir()
    os.chdir(top / "gone")
    os.rmdir(top / "gone")


def _ignored(_: random.Random, __: Path) -> None:
    signal.signal(signal.SIGPIPE, signal.SIG_DFL)
    signal.signal(signal.SIGCHLD, signal.SIG_DFL)


SURROUNDINGS: tuple[Surround, ...] = (
    _text("LANG", "LC_ALL", "HOME", "COLUMNS", "TERM", "PATH", "USER"),
    _text("MPLCONFIGDIR", "MPLBACKEND", "XDG_CACHE_HOME", "XDG_CONFIG_HOME", "PYTHONPATH"),
    _closed, _full, _pipe, _liar, _limits, _scratch, _gone, _ignored,
)  # fmt: skip


def _dataset(chance: random.Random, folder: Path) -> None:
    """A dataset: a damaged one, or one after `lintim make`, of which files are then damaged."""
    if chance.random() < 0.45:
        hostile.write(folder, chance.randrange(10**6))
        if chance.random() < 0.3:
            with contextlib.suppress(Exception):
                program.run(folder, "make")
        return
    files = seeded.dataset(chance.randrange(40), chance.choice((3, 5)))
    files.update(seeded.delays(chance.randrange(40), 20, 30))
    if chance.random() < 0.4:
        files["basis/Stop.giv"] = _renamed(chance, files["basis/Stop.giv"])
    seeded.write(folder, files)
    program.run(folder, "make")
    for path in chance.sample(sorted(it for it in folder.rglob("*") if it.is_file()), 2):
        if chance.random() < 0.4 and "keep" not in path.parts and path.exists():
            path.write_bytes(chance.choice(hostile.KINDS)(chance, path.read_bytes()))
            if chance.random() < 0.5:
                program.run(folder, "make")


def _renamed(chance: random.Random, data: bytes) -> bytes:
    """Stops that are called otherwise."""
    names = (b"x" * 3000, b"\x01\x1b[31m", "\u6771\u4eac\U0001f689".encode(), b"</script>", b"\xff",
             b"$\\frac$", "\ufffe\u2028\u202e".encode(), b"'\"`", b"")  # fmt: skip
    rows = [line.split(b";") for line in data.split(b"\n")]
    for row in rows:
        if len(row) == 5 and not row[0].startswith(b"#"):
            row[chance.choice((1, 2))] = chance.choice(names)
    return b"\n".join(b";".join(row) for row in rows)


def _said(chance: random.Random, folder: bytes, top: Path) -> tuple[str, list[str]]:
    """A command and its words."""
    name = chance.choice(sorted(WORDS))
    words = chance.choice(WORDS[name])
    places = {"{}": os.fsdecode(folder), "{out}": str(top / "out"), "{feed}": str(top / "feed.zip")}
    if chance.random() < 0.05:
        words = f"{words} {chance.choice(('--help', '--x', '', '--seconds -1', '--out', '1e9'))}"
    found = []
    for word in words.split(" "):
        for key, place in places.items():
            word = word.replace(key, place)
        found.append(word)
    return name, found


def _streams() -> None:
    """The streams as Python has them: none where they are closed."""
    for name, number in (("stdin", 0), ("stdout", 1), ("stderr", 2)):
        try:
            os.fstat(number)
            stream = open(number, "r" if number == 0 else "w", closefd=False)
        except OSError:
            stream = None
        setattr(sys, name, stream)


def _child(name: str, words: list[str], chance: random.Random, top: Path, stand: bytes) -> int:
    """What the process does: its exit status. Some are begun anew, by the launcher."""
    os.setsid()
    for number, path in ((0, Path("/dev/null")), (1, top / "said"), (2, top / "told")):
        os.dup2(os.open(path, os.O_RDWR | os.O_CREAT, 0o644), number)
    os.chdir(stand if os.path.isdir(stand) else top)  # a damaged dataset may be a file
    os.environ["TMPDIR"] = str(top / "scratch")
    for change in SURROUNDINGS:
        if chance.random() < 0.06:
            change(chance, top)
    if chance.random() < 0.03:
        os.execv(PYTHON[0], [*PYTHON, str(BIN / name), *words])
    _streams()
    try:
        status = manners.main(name, words)
        if sys.stdout is not None:
            sys.stdout.flush()
    except SystemExit as end:
        return end.code if isinstance(end.code, int) else 98
    return status


def _forked(name: str, words: list[str], chance: random.Random, top: Path, stand: bytes) -> End:
    """Runs a command in a process of its own."""
    sys.stdout.flush()
    child = os.fork()
    if child == 0:
        status = 99
        try:
            status = _child(name, words, chance, top, stand)
        except BaseException as fault:
            with contextlib.suppress(BaseException):
                (top / "told").write_text("".join(traceback.format_exception(fault)))
        finally:
            os._exit(status)
    until = time.monotonic() + LONGEST
    while True:
        ended, state, used = os.wait4(child, os.WNOHANG)
        if ended:
            break
        if time.monotonic() > until:
            os.killpg(child, signal.SIGKILL)
            until = float("inf")
        time.sleep(0.005)
    texts = [path.read_bytes() if path.exists() else b"" for path in (top / "said", top / "told")]
    return End(os.waitstatus_to_exitcode(state), texts[0], texts[1], used.ru_maxrss * 1024)


def state_of(folder: Path) -> dict[str, object]:
    """What stands in a dataset and is not to be changed."""
    found: dict[str, object] = {}
    for path in sorted(folder.rglob("*")):
        name = path.relative_to(folder)
        if name.parts[0] not in MAY_WRITE:
            is_file = path.is_file() and not path.is_symlink()
            found[str(name)] = path.read_bytes() if is_file else path.lstat().st_mode
    return found


def faults_of(name: str, words: list[str], end: End, is_clean: bool) -> list[str]:
    """What is wrong with how a trial ended."""
    told = end.err.decode(errors="replace")
    lines = told.splitlines()
    statuses = {0, 1, 2, 130, 143}
    found = [] if end.status in statuses else [f"status {end.status}"]
    if end.status == -signal.SIGPIPE:
        found = []
    if "a fault of this command" in told or "Traceback" in told or "Error" in told.split(":")[0]:
        found.append("a fault of the command itself")
    if len(lines) > 1:
        found.append(f"{len(lines)} lines on the standard error")
    if any(ord(it) < 32 and it != "\n" for it in told + end.out.decode(errors="replace")):
        found.append("a control sign was printed")
    if end.memory > 2 * GIGABYTE:
        found.append(f"{end.memory >> 20} MiB of memory")
    if not is_clean:
        found.append("something is left in the folder of temporary files")
    return found


def one_trial(seed: int, top: Path) -> list[str]:
    """What is wrong with a trial, by its number; nothing where all is well."""
    chance = random.Random(f"fuzzed {seed}")
    for name in ("out", "scratch"):
        (top / name).mkdir(parents=True)
    folder = os.path.join(os.fsencode(top), chance.choice(FOLDERS))
    place = Path(os.fsdecode(folder))
    _dataset(chance, place)
    damaged(chance.randrange(10**6), top / "feed.zip")
    name, words = _said(chance, chance.choice((folder, b".")), top)
    before = state_of(place)
    end = _forked(name, words, chance, top, folder)
    is_clean = not any(it.name.startswith("lintim-") for it in (top / "scratch").iterdir())
    found = faults_of(name, words, end, is_clean)
    after = state_of(place)
    if name == "lintim-pool":
        before.pop("basis/Pool.giv", None), after.pop("basis/Pool.giv", None)
    if name == "lintim-demand":
        before.pop("basis/OD.giv", None), after.pop("basis/OD.giv", None)
    is_named = any(word.startswith((".", str(place))) for word in words[1:] if name != "lintim-why")
    if after != before and not (is_named and name in ("lintim-view", "lintim-gtfs")):
        found.append("the dataset was changed")
    return [f"{seed}: {name} {words!r}: {it}: {end.err[-300:]!r}" for it in found]


def load() -> None:
    """Loads what commands load, so that a trial need not."""
    import importlib

    for command in COMMANDS:
        importlib.import_module(f"lintim_companion.{command.module}")
    for module in ("gtfs.importing", "pictures.paper", "highs", "timetables.good", "waits.solve"):
        importlib.import_module(f"lintim_companion.{module}")
    for other in ("plotly.offline", "scipy.optimize", "networkx"):
        with contextlib.suppress(ImportError):
            importlib.import_module(other)


def trials(seeds: range, folder: Path, until: float = float("inf")) -> tuple[int, list[str]]:
    """How many trials were run before a moment, and what was wrong with them."""
    load()
    count, found = 0, []
    for seed in seeds:
        if time.monotonic() > until:
            break
        top = folder / f"t{seed}"
        found += one_trial(seed, top)
        shutil.rmtree(top, ignore_errors=True)
        count += 1
    return count, found


if __name__ == "__main__":
    first, last = map(int, sys.argv[1:3])
    for number in range(first, last):
        _, said = trials(range(number, number + 1), Path(sys.argv[3]))
        for line in said:
            print(line, flush=True)
        if number % 50 == 49:
            print(f"-- {number + 1 - first} trials", flush=True)
    print(f"-- all {last - first} trials were run", flush=True)
