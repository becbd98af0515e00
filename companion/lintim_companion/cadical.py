"""CaDiCaL, a solver for clauses, as a program beside this one: with a time limit and progress."""

import subprocess
import tempfile
from collections.abc import Callable
from typing import IO

from .faults import NoProgram, Refused
from .manners import Deadline, Progress

SATISFIED, CONTRADICTED = 10, 20  # the exit statuses of a solver for clauses


class NoTime(Refused):
    """The solver found no answer in time."""


def solve(
    write: Callable[[IO[str]], None], deadline: Deadline, progress: Progress
) -> set[int] | None:
    """The values that are true in a solution of the clauses that are written; none where there is
    no solution."""
    with tempfile.NamedTemporaryFile("w", suffix=".cnf") as file:
        write(file)
        file.flush()
        status, output = _run(["cadical", "-q", file.name], deadline, progress)
    if status == CONTRADICTED:
        return None
    if status != SATISFIED:
        raise Refused(f"CaDiCaL ended with status {status}")
    lines = (line.split() for line in output.splitlines() if line.startswith("v"))
    return {int(word) for line in lines for word in line[1:] if word[0] != "-"}


def _run(words: list[str], deadline: Deadline, progress: Progress) -> tuple[int, str]:
    """The exit status of a solver and what it printed; it is ended where time is over, and leaves
    signals to this program."""
    try:
        process = subprocess.Popen(
            words,
            stdin=subprocess.DEVNULL,
            stdout=subprocess.PIPE,
            stderr=subprocess.DEVNULL,
            text=True,
            start_new_session=True,
        )
    except FileNotFoundError:
        raise NoProgram(f"the program {words[0]} is missing: apt install {words[0]}") from None
    with process:
        try:
            while not deadline.is_over():
                try:
                    output, _ = process.communicate(timeout=min(0.5, max(0.01, deadline.left())))
                    return process.returncode, output
                except subprocess.TimeoutExpired:
                    progress.tell("nothing found yet, CaDiCaL is at work")
        finally:
            process.kill()
    raise NoTime(f"CaDiCaL found no answer in {deadline.spent():.0f} seconds")
