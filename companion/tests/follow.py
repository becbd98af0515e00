"""Follows what `lintim-why` says would help, by its printed words alone."""

import os
import re
import subprocess
from collections.abc import Callable
from pathlib import Path

from commands import BIN, environment
from lintim_companion import program

WRITE = re.compile(r"write line (\d+) of (\S+) as `(.*)`")
ADD = re.compile(r"add to (\S+): (`.*`)(?: with .*)?")
TAKE = re.compile(r"take line (\d+) out of (\S+)")
RENAME = re.compile(r"rename `(.*)` to `(.*)`")
RUN = re.compile(r"run `([^`]*)`(?: .*)?")
MOST_TURNS = 40


def parts(remedy: str, between: str) -> list[str]:
    """The parts of a remedy between which some words stand, where no part is inside backquotes."""
    found = [""]
    for piece in remedy.split(between):
        if found[-1].count("`") % 2:
            found[-1] += between + piece
        elif found[-1]:
            found.append(piece)
        else:
            found[-1] = piece
    return found


def names_a_value(step: str) -> bool:
    """Whether a step says just what is to be done."""
    return any(form.fullmatch(step) for form in (WRITE, ADD, TAKE, RENAME, RUN))


def alternatives(remedy: str) -> list[list[str]]:
    """The ways of a remedy, each with its steps, those that say just what is to be done."""
    ways = [parts(way, ", and ") for way in parts(remedy, "; or ")]
    return [way for way in ways if all(map(names_a_value, way))]


def follow(folder: Path, way: list[str]) -> None:
    """Does all steps. Lines that go are counted before any of them goes."""
    for step in sorted(way, key=lambda step: bool(TAKE.fullmatch(step))):
        _do(folder, step)


def _do(folder: Path, step: str) -> None:
    write, rows = WRITE.fullmatch(step), ADD.fullmatch(step)
    out, name, command = TAKE.fullmatch(step), RENAME.fullmatch(step), RUN.fullmatch(step)
    if write:
        _edit_line(folder / write[2], int(write[1]), write[3].encode())
    elif rows:
        path = folder / rows[1]
        data = path.read_bytes() if path.exists() else b""
        data += b"" if not data or data.endswith(b"\n") else b"\n"
        new = re.findall(r"`(.*?)`", rows[2])
        path.write_bytes(data + "".join(f"{row}\n" for row in new).encode())
    elif out:
        _edit_line(folder / out[2], int(out[1]), None)
    elif name:
        (folder / name[2]).parent.mkdir(parents=True, exist_ok=True)
        os.rename(folder / name[1], folder / name[2])
    elif command:
        _run(folder, command[1])


def _edit_line(path: Path, line: int, new: bytes | None) -> None:
    lines = path.read_bytes().split(b"\n")
    lines[line - 1 : line] = [] if new is None else [new]
    path.write_bytes(b"\n".join(lines))


def _run(folder: Path, command: str) -> None:
    """A command in a shell, with `lintim` and the commands of the package on the PATH."""
    tools = folder.parent / "tools"
    tools.mkdir(exist_ok=True)
    if not (tools / "lintim").exists():
        (tools / "lintim").symlink_to(program.find())
    path = f"{tools}:{BIN}:{os.environ['PATH']}"
    ended = subprocess.run(
        ["bash", "-c", command], cwd=folder, env=environment(PATH=path), capture_output=True
    )
    is_good = ended.returncode == 0 or "; " in command
    assert is_good and not ended.stderr.startswith(b"bash: "), (command, ended.stderr)


def until_good(folder: Path, remedies: Callable[[Path], list[str]]) -> int:
    """Follows the first remedy that says just what is to be done, again and again, until nothing
    is to be said: how often."""
    for turn in range(MOST_TURNS):
        told = remedies(folder)
        if not told:
            return turn
        ways = [way for remedy in told for way in alternatives(remedy)]
        assert ways, told
        follow(folder, ways[0])
    raise AssertionError(f"not good after {MOST_TURNS} turns: {told}")
