"""Periodic event scheduling a second time, for the tests of `pesp-judge`: random problems, their
timetables by brute force, a judge that shares no code with the program, and certificates of lower
bounds, which are found by linear programs (scipy's HiGHS) and rounded to whole multipliers.

A certificate is a row `claim; S; D`, cycles of activities, and a tree over how many periods a cycle
takes (docs/PESP-JUDGE.md). At a leaf the program wants a combination of inequalities, each times a
whole number of parts of one: those of the splits on the way, and the cuts of cycles."""

import itertools
import math
import random
from collections.abc import Iterator
from dataclasses import dataclass, field
from typing import NamedTuple

import numpy as np
import numpy.typing as npt
from scipy.optimize import linprog

PARTS = 1_000_000
Numbers = npt.NDArray[np.float64]


class Activity(NamedTuple):
    """An activity: events by their names, bounds in minutes, and the weight of a minute of slack."""

    tail: int
    head: int
    lower: int
    upper: int
    weight: int


@dataclass
class Problem:
    """A periodic event scheduling problem."""

    period: int
    activities: list[Activity]

    @property
    def events(self) -> list[int]:
        """The events, in the order in which they come."""
        return list(dict.fromkeys(it for a in self.activities for it in (a.tail, a.head)))

    def rows(self, separator: str = "; ") -> str:
        """The rows of the problem in the form of PESPlib."""
        lines = (separator.join(map(str, (i + 1, *it))) for i, it in enumerate(self.activities))
        return "".join(line + "\n" for line in lines)

    def span(self, it: Activity) -> int:
        """The most slack of an activity in any timetable."""
        return min(it.upper - it.lower, self.period - 1)

    def greatest(self) -> int:
        """What a timetable costs at most."""
        return sum(it.weight * self.span(it) for it in self.activities)

    def slacks(self, times: dict[int, int]) -> list[int]:
        """The slack of each activity."""
        return [(times[a.head] - times[a.tail] - a.lower) % self.period for a in self.activities]

    def judged(self, times: dict[int, int]) -> int | tuple[int, int]:
        """The weighted slack of times, or the number of the first activity that is not kept and the
        minutes that it takes."""
        slacks = self.slacks(times)
        for number, (it, slack) in enumerate(zip(self.activities, slacks, strict=True), 1):
            if it.lower + slack > it.upper:
                return number, it.lower + slack
        return sum(it.weight * slack for it, slack in zip(self.activities, slacks, strict=True))

    def all_times(self) -> Iterator[dict[int, int]]:
        """All times of which the first event is at 0: others are these, shifted."""
        first, *others = self.events
        for times in itertools.product(range(self.period), repeat=len(others)):
            yield {first: 0, **dict(zip(others, times, strict=True))}

    def least(self) -> int | None:
        """The least weighted slack by brute force, or None where there is no timetable."""
        found = (self.judged(times) for times in self.all_times())
        return min((it for it in found if isinstance(it, int)), default=None)


def random_problem(choice: random.Random, events: int = 4, more: int = 3) -> Problem:
    """A small connected problem."""
    period = choice.choice([5, 7, 10, 12])
    names = choice.sample(range(-50, 1000), events)
    pairs = [(names[choice.randrange(i)], names[i]) for i in range(1, events)]
    pairs += [
        (names[choice.randrange(events)], names[choice.randrange(events)]) for _ in range(more)
    ]
    activities = []
    for tail, head in pairs:
        if choice.random() < 0.5:
            tail, head = head, tail
        lower = choice.randrange(0, 2 * period)
        upper = lower + choice.choice([0, 0, 1, 2, 3, period // 2, period - 1, 3 * period])
        activities.append(Activity(tail, head, lower, upper, choice.randrange(0, 9)))
    choice.shuffle(activities)
    return Problem(period, activities)


class Step(NamedTuple):
    """A step of a cycle: an activity by its index, along it (1) or against it (-1)."""

    activity: int
    sign: int


def cycle_basis(problem: Problem) -> list[list[Step]]:
    """The cycles that each activity outside of a spanning tree closes."""
    way: dict[int, list[Step]] = {}
    left = list(range(len(problem.activities)))
    for root in problem.events:
        if root in way:
            continue
        way[root] = []
        grows = True
        while grows:
            grows = False
            for index in list(left):
                it = problem.activities[index]
                if it.tail == it.head or (it.tail in way) == (it.head in way):
                    continue
                known, new, sign = (
                    (it.tail, it.head, 1) if it.tail in way else (it.head, it.tail, -1)
                )
                way[new] = [*way[known], Step(index, sign)]
                left.remove(index)
                grows = True
    return [closed(way, problem.activities[index], index) for index in left]


def closed(way: dict[int, list[Step]], it: Activity, index: int) -> list[Step]:
    """The cycle of an activity and the tree: along it, and back."""
    there, back = way[it.tail], way[it.head]
    same = 0
    while same < min(len(there), len(back)) and there[same] == back[same]:
        same += 1
    home = [Step(step.activity, -step.sign) for step in reversed(back[same:])]
    return [*there[same:], Step(index, 1), *home]


@dataclass
class Inequality:
    """Slacks, each times what it counts, are so much together at least."""

    counts: dict[int, int]
    right: int


@dataclass
class Writer:
    """Finds a tree that shows a claim, by branch and bound over how many periods cycles take."""

    problem: Problem
    cycles: list[list[Step]]
    claim: int
    most_leaves: int = 10_000
    rows: list[tuple[str, int, int]] = field(default_factory=list)
    leaves: int = 0

    def lower(self, cycle: list[Step]) -> int:
        return sum(step.sign * self.problem.activities[step.activity].lower for step in cycle)

    def counts(self, cycle: list[Step], sign: int) -> dict[int, int]:
        found: dict[int, int] = {}
        for step in cycle:
            found[step.activity] = found.get(step.activity, 0) + sign * step.sign
        return found

    def cut(self, cycle: list[Step]) -> Inequality:
        """Nachtigall's cycle inequality, without flips."""
        period = self.problem.period
        turned = -self.lower(cycle) % period
        found: dict[int, int] = {}
        for step in cycle:
            count = period - turned if step.sign > 0 else turned
            found[step.activity] = found.get(step.activity, 0) + count
        return Inequality(found, turned * (period - turned))

    def of_split(self, split: tuple[int, bool, int]) -> Inequality:
        number, least, periods = split
        cycle = self.cycles[number]
        taken = self.problem.period * periods - self.lower(cycle)
        return Inequality(self.counts(cycle, 1 if least else -1), taken if least else -taken)

    def solved(self, all_of: list[Inequality]) -> tuple[Numbers, Numbers, float]:
        """Slacks of least cost under inequalities that may be missed at a high price, the
        multipliers of these, and the cost."""
        problem = self.problem
        n, m = len(problem.activities), len(all_of)
        price = 100.0 * (problem.greatest() + 1)
        cost = [float(it.weight) for it in problem.activities] + [price] * m
        matrix, right = np.zeros((m, n + m)), np.zeros(m)
        for i, it in enumerate(all_of):
            for index, count in it.counts.items():
                matrix[i, index] = -count
            matrix[i, n + i], right[i] = -1.0, -it.right
        bounds = [(0, problem.span(it)) for it in problem.activities] + [(0, None)] * m
        if not m:
            return np.zeros(n), np.zeros(0), 0.0
        found = linprog(cost, A_ub=matrix, b_ub=right, bounds=bounds, method="highs")
        assert found.status == 0, found.message
        return found.x[:n], -found.ineqlin.marginals, float(found.fun)

    def shown(self, all_of: list[Inequality], times: list[int]) -> int:
        """What a leaf shows with whole multipliers, in parts."""
        left = [PARTS * it.weight for it in self.problem.activities]
        right = 0
        for it, many in zip(all_of, times, strict=True):
            right += many * it.right
            for index, count in it.counts.items():
                left[index] -= many * count
        spans = (self.problem.span(it) for it in self.problem.activities)
        return right + sum(min(one, 0) * span for one, span in zip(left, spans, strict=True))

    def walk(self, path: list[tuple[int, bool, int]]) -> bool:
        """Writes the tree over a region; False where it grows too large, or where slacks of less
        cost lie in the region."""
        cuts = [self.cut(cycle) for cycle in self.cycles]
        all_of = [self.of_split(split) for split in path] + cuts
        slacks, multipliers, _ = self.solved(all_of)
        whole = [max(0, round(it * PARTS)) for it in multipliers]
        if (self.claim - 1) * PARTS < self.shown(all_of, whole):
            self.leaves += 1
            self.rows.append(("leaf", 0, 0))
            for place, many in enumerate(whole):
                if many and place < len(path):
                    self.rows.append(("bound", place + 1, many))
                elif many:
                    self.rows.append(("cut", place - len(path) + 1, many))
            return self.leaves <= self.most_leaves
        number, periods = self.fractional(slacks)
        if number is None:
            return False
        self.rows.append(("split", number + 1, periods))
        return self.walk([*path, (number, False, periods)]) and self.walk(
            [*path, (number, True, periods + 1)]
        )

    def fractional(self, slacks: Numbers) -> tuple[int | None, int]:
        """The cycle whose number of periods is farthest from a whole one, and where it is split."""
        best, most, at = None, 1e-6, 0
        for number, cycle in enumerate(self.cycles):
            taken = self.lower(cycle) + sum(step.sign * slacks[step.activity] for step in cycle)
            periods = taken / self.problem.period
            off = abs(periods - round(periods))
            if off > most:
                best, most, at = number, off, math.floor(periods)
        return best, at

    def text(self) -> str:
        """The certificate."""
        lines = [f"claim; {self.claim}; {PARTS}"]
        for number, cycle in enumerate(self.cycles, 1):
            lines.append(f"cycle; {number}; 0")
            lines += [f"arc; {step.activity + 1}; {step.sign}" for step in cycle]
        lines += ["; ".join(map(str, row)) for row in self.rows]
        return "\n".join(lines) + "\n"


def certificate(problem: Problem, claim: int) -> str | None:
    """A certificate that no timetable has less weighted slack, where one is found."""
    cycles = [it for it in cycle_basis(problem) if it]
    writer = Writer(problem, cycles, claim)
    return writer.text() if writer.walk([]) else None


def root_bound(problem: Problem) -> tuple[int, float, str]:
    """The bound that cuts alone show, what HiGHS says of it, and its certificate."""
    cycles = cycle_basis(problem)
    writer = Writer(problem, cycles, 0)
    cuts = [writer.cut(cycle) for cycle in cycles]
    _, multipliers, value = writer.solved(cuts)
    whole = [max(0, math.floor(it * PARTS)) for it in multipliers]
    claim = math.ceil(writer.shown(cuts, whole) / PARTS)
    writer.claim = claim
    writer.rows = [("leaf", 0, 0)]
    writer.rows += [("cut", place + 1, many) for place, many in enumerate(whole) if many]
    return claim, value, writer.text()
