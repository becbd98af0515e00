"""Running the commands of the package in tests, as a user does."""

import os
import subprocess
from pathlib import Path

from lintim_companion import program

BIN = program.CHECKOUT / "companion/bin"
PYTHON = ("/usr/bin/python3", "-I", "-B")


class Ended:
    """How a command ended: its exit status, and the lines that it printed."""

    def __init__(self, status: int, out: bytes, err: bytes) -> None:
        self.status = status
        self.out = out.decode().splitlines()
        self.err = err.decode().splitlines()

    def one_line(self) -> str:
        """The line of a fault, where nothing else was printed."""
        assert len(self.err) == 1, self.err
        assert "Traceback" not in self.err[0]
        return self.err[0]


def environment(**more: str) -> dict[str, str]:
    """The environment of a command, in which the program is found as it is in the tests."""
    return {**os.environ, "LINTIM": program.find(), "PYTHONDONTWRITEBYTECODE": "1", **more}


def run(name: str, *words: object, start: tuple[str, ...] = PYTHON, **more: str) -> Ended:
    """Runs a command to its end."""
    ended = subprocess.run(
        [*start, str(BIN / name), *map(str, words)],
        capture_output=True,
        env=environment(**more),
        cwd="/",
    )
    return Ended(ended.returncode, ended.stdout, ended.stderr)


def start(name: str, *words: object) -> "subprocess.Popen[bytes]":
    """Starts a command."""
    return subprocess.Popen(
        [*PYTHON, str(BIN / name), *map(str, words)],
        stdout=subprocess.PIPE,
        stderr=subprocess.PIPE,
        env=environment(),
        cwd="/",
    )


def made(folder: Path) -> Path:
    """The folder, after `lintim make`."""
    assert program.run(folder, "make").status == 0
    return folder
