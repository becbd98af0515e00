"""Lines in a period: how often each one is driven, and the minutes of its runs.

A line is as `lintim` rolls a timetable out where, in both directions, its trips are those of some
runs, each of which comes again in every period of the window with the same minutes, and where the
runs of a direction are evenly spread (P. Serafini and W. Ukovich, A mathematical model for periodic
scheduling problems, 1989, with the syncs of `lintim`).
"""

from collections import Counter
from typing import NamedTuple

from .lines import Line, Run


Minutes = list[tuple[int, tuple[int, ...]]]  # of runs: the start in the period, and what follows


class Window(NamedTuple):
    """The minutes of the day at which trips start first and last, and the minutes of a period."""

    first: int
    last: int
    period: int

    @property
    def periods(self) -> int:
        """How many periods begin in it."""
        return (self.last - self.first) // self.period + 1

    def starts(self, minute: int) -> list[int]:
        """The starts of a run in the window, by its minute in the period."""
        begin = self.first + (minute - self.first) % self.period
        return list(range(begin, self.last + 1, self.period))


class Timed(NamedTuple):
    """The minutes of a line: of each direction its runs, each with its start in the period and the
    minutes after that of its events; and why they are not those of the feed, if they are not."""

    forward: Minutes
    backward: Minutes
    why_not: str

    @property
    def frequency(self) -> int:
        """How often the line is driven in a period, in each direction."""
        return len(self.forward)


def timed(line: Line, window: Window) -> Timed:
    """The minutes of a line: as in the feed where it is periodic, else near to that."""
    try:
        if not line.forward or not line.backward:
            raise NotPeriodic("it is driven in one direction alone")
        forward, backward = _runs(line.forward, window), _runs(line.backward, window)
        if len(forward) != len(backward):
            raise NotPeriodic("its directions are not driven equally often")
        return Timed(forward, backward, "")
    except NotPeriodic as why:
        return _near(line, window, str(why))


class NotPeriodic(Exception):
    """Why a line is not periodic."""


def _runs(runs: list[Run], window: Window) -> Minutes:
    """The runs of a direction, evenly spread, in the order of their repetitions."""
    by_minute: dict[int, list[Run]] = {}
    for run in sorted(runs):
        by_minute.setdefault(run.start % window.period, []).append(run)
    found = []
    for minute, of_minute in sorted(by_minute.items()):
        if [run.start for run in of_minute] != window.starts(minute):
            raise NotPeriodic("its trips do not come again in each period of the window")
        if len({run.offsets for run in of_minute}) > 1:
            raise NotPeriodic("its trips do not take the same minutes")
        found.append((minute, of_minute[0].offsets))
    return _spread(found, window.period)


def _spread(runs: Minutes, period: int) -> Minutes:
    """Runs so turned that each follows the one before after an even part of the period."""
    count = len(runs)
    for turn in range(count):
        turned = runs[turn:] + runs[:turn]
        steps = [(b[0] - a[0]) % period for a, b in zip(turned, turned[1:])]
        if all(period // count <= step <= -(-period // count) for step in steps):
            return turned
    raise NotPeriodic("its trips are not evenly spread over the period")


def frequency_of(line: Line, window: Window) -> int:
    """How often a line is driven in a period on average, rounded; once at least."""
    most = max(len(line.forward), len(line.backward))
    return max(1, (2 * most + window.periods) // (2 * window.periods))


def _near(line: Line, window: Window, why: str) -> Timed:
    """Evenly spread runs with the minutes that are most usual in each direction."""
    frequency = frequency_of(line, window)
    sides = []
    for runs, others in ((line.forward, line.backward), (line.backward, line.forward)):
        offsets = _usual(runs) if runs else _mirrored(_usual(others))
        begin = min(runs or others).start % window.period
        sides.append(
            [
                ((begin + at * window.period // frequency) % window.period, offsets)
                for at in range(frequency)
            ]
        )
    return Timed(sides[0], sides[1], why)


def _usual(runs: list[Run]) -> tuple[int, ...]:
    """The minutes that most runs have, those of the first one among several."""
    counts = Counter(run.offsets for run in sorted(runs))
    return max(counts, key=lambda it: counts[it])


def _mirrored(offsets: tuple[int, ...]) -> tuple[int, ...]:
    """The minutes of a run all the way back."""
    last = offsets[-1]
    return tuple(last - it for it in (*reversed(offsets[:-1]), 0))
