"""Timetables as clauses over truth values, by the order of times: the order encoding of periodic
event scheduling (Großmann, Hölldobler, Manthey, Nachtigall, Opitz, Steinke, 2012)."""

from typing import IO

from .problem import PeriodicProblem, Span

Literal = int | bool


class Clauses:
    """What a time of an event may be. The value of (event, t) is true where the event comes at
    minute t or before; `at_most` gives its number, or a constant at the ends of the period."""

    def __init__(self, problem: PeriodicProblem) -> None:
        self.period = problem.period
        self.events = problem.events
        self.count = problem.events * (self.period - 1)
        self.clauses: list[list[int]] = []
        for event in range(problem.events):
            for t in range(self.period - 2):
                first, second = self.number(event, t), self.number(event, t + 1)
                self.clauses.append([-first, second])
        self.ends: list[int] = []  # how many clauses there are once an activity is bound
        for span in problem.spans:
            self.bind(span)
            self.ends.append(len(self.clauses))
        if self.period > 1:
            self.clauses += [[self.number(event, 0)] for event in parts(problem)]

    def number(self, event: int, t: int) -> int:
        """The number of a value, for a minute that is not the last one."""
        return event * (self.period - 1) + t + 1

    def at_most(self, event: int, t: int) -> Literal:
        """Whether an event comes by a minute: a number, or known."""
        if t < 0:
            return False
        return True if t >= self.period - 1 else self.number(event, t)

    def forbid(self, first: int, times: range, second: int, others: range) -> None:
        """Not both: the first event in one range of minutes, and the second in the other."""
        clause: list[int] = []
        for event, within in ((first, times), (second, others)):
            for literal, wanted in (
                (self.at_most(event, within.start - 1), True),
                (self.at_most(event, within.stop - 1), False),
            ):
                if isinstance(literal, bool):
                    if literal is wanted:
                        return
                else:
                    clause.append(literal if wanted else -literal)
        self.clauses.append(clause)

    def bind(self, span: Span) -> None:
        """The second event comes within the bounds after the first, in some period.

        The minutes between them that are not allowed form bands, one for each period; each band
        is covered by rectangles, and no rectangle may hold both times."""
        period, width = self.period, span.upper - span.lower
        if width >= period - 1:
            return
        if span.first == span.second:
            if -span.lower % period > width:
                self.clauses.append([])
            return
        gap = period - width - 2  # a band has gap + 1 differences
        wide = gap // 2
        for start in range((span.upper + 1) % period - 2 * period, period, period):
            for a in range(-wide, period):
                c, d = a + wide + start, a + start + gap
                if d >= 0 and c < period:
                    times = range(max(a, 0), min(a + wide, period - 1) + 1)
                    others = range(max(c, 0), min(d, period - 1) + 1)
                    self.forbid(span.first, times, span.second, others)

    def write(self, file: IO[str]) -> None:
        """Writes the clauses in the form that solvers read (DIMACS)."""
        file.write(f"p cnf {self.count} {len(self.clauses)}\n")
        file.writelines(" ".join(map(str, clause + [0])) + "\n" for clause in self.clauses)

    def times(self, values: set[int]) -> list[int]:
        """The time of each event, by the values that are true."""
        found = []
        for event in range(self.events):
            by = (t for t in range(self.period - 1) if self.number(event, t) in values)
            found.append(next(by, self.period - 1))
        return found


def parts(problem: PeriodicProblem) -> list[int]:
    """An event of each part of the network: all times of a part can be moved together."""
    leader = list(range(problem.events))

    def lead(event: int) -> int:
        while leader[event] != event:
            leader[event] = event = leader[leader[event]]
        return event

    for span in problem.spans:
        leader[lead(span.first)] = lead(span.second)
    return [event for event in range(problem.events) if lead(event) == event]
