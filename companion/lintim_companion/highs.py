"""HiGHS, in SciPy: mixed-integer programs, with progress, a time limit and what was found so far.

SciPy tells nothing while HiGHS is at work, and gives what was found only at its end. So HiGHS runs
in a process of its own (`highs_worker`), whose log is read for progress, and with limits that grow
from run to run: whatever ends the search, what the runs before have found is there.
"""

import os
import pickle
import re
import select
import subprocess
from collections.abc import Callable, Generator
from contextlib import closing
from functools import partial
from multiprocessing.connection import Connection
from pathlib import Path
from typing import IO, NamedTuple

from .faults import Refused
from .manners import Deadline, Progress, searched
from .surroundings import python

FIRST_LIMIT = 5.0  # seconds of the first run; each later one takes three times as long
GRACE = 5.0  # seconds that HiGHS may take beyond its limit
LOG_LINE = re.compile(r"\s*(?:[A-Z]\s+)?\d+\s+\d+\s+\d+\s+[\d.]+%\s+(\S+)\s+(\S+)\s")
WORKER = Path(__file__).resolve().with_name("highs_worker.py")


class Cell(NamedTuple):
    """A number of a matrix that is not 0."""

    row: int
    column: int
    value: float


class Mixed(NamedTuple):
    """Least costs over values within ranges, some of them whole, so that each row of a matrix has
    its sum between two ends. The constant is what all values cost beside, for whom progress is
    told."""

    costs: list[float]
    low: list[float]
    high: list[float]
    is_whole: list[bool]
    cells: list[Cell]
    least: list[float]
    most: list[float]
    constant: float = 0.0


class Answer(NamedTuple):
    """What a run found: values, if any; whether none cost less; whether there are none at all;
    whether the run ended because its time was over; and what none can cost less than, if known."""

    values: list[float] | None
    is_best: bool
    is_infeasible: bool
    is_late: bool
    says: str
    bound: float | None = None


def solve(
    problem: Mixed, deadline: Deadline, progress: Progress, found: Callable[[Answer], None]
) -> Answer:
    """The best values that are found in time; `found` is given those of each run."""
    best = Answer(None, False, False, True, "no time was left")
    with closing(_answers(problem, deadline, progress)) as answers:
        for answer in answers:
            if answer.values is not None or not answer.is_late or best.values is None:
                best = answer
            if answer.values is not None:
                found(answer)
            if not answer.is_late:
                break
    return best


def _limits(seconds: float) -> list[float]:
    """The time limits of the runs, the last of which has what is left."""
    limits, limit = [], FIRST_LIMIT
    while seconds > 2 * limit:
        limits.append(limit)
        seconds, limit = seconds - limit, 3 * limit
    return limits + [seconds]


def _answers(
    problem: Mixed, deadline: Deadline, progress: Progress
) -> Generator[Answer, None, None]:
    """The answers of runs of HiGHS, one after the other. Ends where time is over."""
    ours, theirs = os.pipe()
    with subprocess.Popen(
        python(str(WORKER), str(theirs)),
        cwd="/",
        stdin=subprocess.PIPE,
        stdout=subprocess.PIPE,
        stderr=subprocess.DEVNULL,
        pass_fds=[theirs],
        start_new_session=True,
    ) as process, Connection(ours, writable=False) as answers:
        try:
            os.close(theirs)
            assert process.stdin is not None and process.stdout is not None
            limits = _limits(deadline.left())
            with process.stdin as given:
                pickle.dump((_plain(problem), limits), given)
            tell = partial(_tell, {}, problem.constant, progress)
            for answer in _received(answers, process.stdout, deadline, tell):
                yield answer
                limits.pop()
                if not limits:
                    break
        except (EOFError, BrokenPipeError):
            raise Refused("HiGHS ended without an answer") from None
        finally:
            process.kill()


def _plain(problem: Mixed) -> tuple[object, ...]:
    """A problem without types of this package, which the worker need not have."""
    cells = [tuple(cell) for cell in problem.cells]
    return (*problem[:4], cells, *problem[5:])


def _received(
    answers: Connection, log: IO[bytes], deadline: Deadline, tell: Callable[[str], None]
) -> Generator[Answer, None, None]:
    """The answers as they come, while the log is read for progress. Ends where time is over."""
    while deadline.left() or deadline.spent() - deadline.seconds < GRACE:
        ready, _, _ = select.select([answers, log], [], [], 0.5)
        tell(os.read(log.fileno(), 1 << 16).decode(errors="replace") if log in ready else "")
        if answers in ready:
            yield Answer(*answers.recv())


def _tell(seen: dict[str, float], constant: float, progress: Progress, log: str) -> None:
    """Takes note of what the log says, and tells it where it is time."""
    for line in log.splitlines():
        parts = LOG_LINE.match(line)
        if parts:
            seen.update(zip(("bound", "found"), map(float, parts.groups())))
    progress.tell(lambda: _searched(seen, constant))


def _searched(seen: dict[str, float], constant: float) -> str:
    """How far HiGHS is, by its log."""
    infinite = float("inf")
    found, bound = (seen.get(word, infinite) + constant for word in ("found", "bound"))
    gap = (found - bound) / abs(found) if abs(found) not in (0, infinite) else None
    return searched(
        f"{found:g}" if abs(found) != infinite else None,
        f"{bound:g}" if abs(bound) != infinite else None,
        gap,
    )
