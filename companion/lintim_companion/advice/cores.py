"""Sets of activities that no timetable keeps together and of which none can be left out.

CaDiCaL says of a set whether a timetable keeps it; what can be left out goes, in parts that become
smaller (QuickXplain and delta debugging: U. Junker, 2004; A. Zeller and R. Hildebrandt, 2002).
"""

from collections.abc import Callable, Iterable, Sequence
from typing import IO

from .. import cadical
from ..manners import Deadline, Progress
from ..timetables.clauses import Clauses
from ..timetables.problem import PeriodicProblem

Groups = Sequence[frozenset[int]]


class Cores:
    """A periodic problem whose activities can be taken one by one, by their places."""

    def __init__(self, problem: PeriodicProblem, deadline: Deadline, progress: Progress) -> None:
        self.problem, self.deadline, self.progress = problem, deadline, progress
        clauses = Clauses(problem)
        lines = [" ".join(map(str, clause + [0])) + "\n" for clause in clauses.clauses]
        starts = [problem.events * max(0, problem.period - 2), *clauses.ends]
        self.size = clauses.count
        self.each = [lines[a:b] for a, b in zip(starts, starts[1:])]
        self.always = lines[: starts[0]] + lines[starts[-1] :]
        self.calls = 0

    def is_impossible(self, places: Iterable[int]) -> bool:
        """Whether no timetable keeps some activities. Raises `cadical.NoTime`."""
        chosen = [line for place in places for line in self.each[place]]
        self.calls += 1

        def write(file: IO[str]) -> None:
            """All clauses of these activities."""
            file.write(f"p cnf {self.size} {len(self.always) + len(chosen)}\n")
            file.writelines(self.always)
            file.writelines(chosen)

        self.progress.tell(f"{self.calls} questions to CaDiCaL")
        return cadical.solve(write, self.deadline, self.progress) is None

    def smallest(self, groups: Groups, orders: int = 3) -> tuple[list[int], bool]:
        """A set that no timetable keeps, and whether none of it can be left out: groups first, as
        all activities of a line, then activities, in some orders, of which the best is taken."""
        bound = [place for place, lines in enumerate(self.each) if lines]
        best, is_minimal = bound, False
        try:
            rough = self._without_groups(bound, groups)
            best = rough
            for order in range(orders):
                core = self._minimal(_ordered(rough, self.problem, order))
                if not is_minimal or len(core) < len(best):
                    best, is_minimal = core, True
        except cadical.NoTime:
            pass
        return sorted(best), is_minimal

    def _without_groups(self, places: list[int], groups: Groups) -> list[int]:
        for group in groups:
            fewer = [place for place in places if place not in group]
            if len(fewer) < len(places) and self.is_impossible(fewer):
                places = fewer
        return places

    def _minimal(self, places: list[int]) -> list[int]:
        """A set of which none can be left out, from one that no timetable keeps."""
        size = max(1, len(places) // 2)
        while True:
            at = 0
            while at < len(places):
                fewer = places[:at] + places[at + size :]
                if self.is_impossible(fewer):
                    places = fewer
                else:
                    at += size
            if size == 1:
                return places
            size = max(1, size // 2)


def _ordered(places: list[int], problem: PeriodicProblem, order: int) -> list[int]:
    """The activities in an order in which they are left out: wide ones first, or by their places
    from the one end or the other."""
    if order == 0:
        return sorted(places, key=lambda at: problem.spans[at].lower - problem.spans[at].upper)
    return sorted(places, reverse=order == 2)


def least_good(low: int, high: int, is_good: Callable[[int], bool]) -> int:
    """The least number above `low` that is good, where `high` is and all above a good one are."""
    while high - low > 1:
        middle = (low + high) // 2
        if is_good(middle):
            high = middle
        else:
            low = middle
    return high
