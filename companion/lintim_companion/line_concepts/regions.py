"""Regions of a line problem: ranges of frequencies, what is in them, and what it costs."""

from dataclasses import dataclass, field
from typing import NamedTuple

import numpy
from scipy.optimize import linprog

from ..cells import MILLION
from ..faults import Refused
from .problem import LineProblem

OVER, UNDER = 0, 1  # an edge is driven too often, or too rarely

Prices = dict[int, int]  # by edges, what a drive that is missing there costs, in millionths


@dataclass(frozen=True)
class Split:
    """The range of a line is cut: up to a frequency, and above it."""

    line: int
    at: int


@dataclass(frozen=True)
class Empty:
    """No concept is in the region: an edge is driven too often or too rarely all over it."""

    edge: int
    side: int


@dataclass(frozen=True)
class BoundBy:
    """Each concept of the region costs enough, as prices of edges prove."""

    prices: Prices = field(default_factory=dict)


@dataclass(frozen=True)
class Point:
    """The region is one concept."""


Leaf = Empty | BoundBy | Point
Node = Split | Leaf


class Step(NamedTuple):
    """A line runs `value` times at least (UNDER) or at most (OVER); a leaf settles the rest."""

    line: int
    side: int
    value: int
    leaf: Empty | BoundBy


class Region:
    """A range of frequencies for each line, with the sums of both ends over each edge."""

    def __init__(self, problem: LineProblem, low: list[int], high: list[int]) -> None:
        self.problem, self.low, self.high = problem, low, high
        self.least = [sum(low[line] for line in lines) for lines in problem.through]
        self.most = [sum(high[line] for line in lines) for lines in problem.through]

    @classmethod
    def root(cls, problem: LineProblem) -> "Region":
        """The region of all concepts that may be feasible."""
        return cls(problem, [0] * len(problem.lines), problem.greatest())

    def copy(self) -> "Region":
        """The same region again."""
        other = object.__new__(Region)
        other.problem, other.low, other.high = self.problem, self.low[:], self.high[:]
        other.least, other.most = self.least[:], self.most[:]
        return other

    def part(self, line: int, low: int, high: int) -> "Region":
        """The part in which a line has this range."""
        other = self.copy()
        other.narrow(line, low, high)
        return other

    def narrow(self, line: int, low: int, high: int) -> None:
        """Gives a line this range."""
        for edge in self.problem.lines[line].edges:
            self.least[edge] += low - self.low[line]
            self.most[edge] += high - self.high[line]
        self.low[line], self.high[line] = low, high

    def is_free(self, line: int) -> bool:
        """Whether a line has several frequencies."""
        return self.low[line] < self.high[line]

    def is_point(self) -> bool:
        """Whether the region is one concept."""
        return self.low == self.high

    def take(self, step: Step) -> None:
        """Narrows the range of a line by a step."""
        low, high = self.low[step.line], self.high[step.line]
        if step.side == UNDER:
            self.narrow(step.line, max(low, step.value), high)
        else:
            self.narrow(step.line, low, min(high, step.value))

    def cost(self) -> int:
        """What the least frequencies cost."""
        return self.problem.cost(self.low)

    def empty_edge(self) -> Empty | None:
        """An edge that is driven too rarely, or too often, all over the region."""
        for place, edge in enumerate(self.problem.edges):
            if self.least[place] > edge.most:
                return Empty(place, OVER)
            if self.most[place] < edge.least:
                return Empty(place, UNDER)
        return None

    def tighten(self) -> list[Step]:
        """Narrows ranges to what the edges leave, and tells the steps."""
        steps: list[Step] = []
        todo = set(range(len(self.problem.edges)))
        while todo:
            place = todo.pop()
            edge = self.problem.edges[place]
            if self.least[place] > edge.most or self.most[place] < edge.least:
                break
            for line in self.problem.through[place]:
                low, high = self.low[line], self.high[line]
                at_least = max(low, edge.least - self.most[place] + high)
                at_most = min(high, edge.most - self.least[place] + low)
                if low < at_least:
                    steps.append(Step(line, UNDER, at_least, Empty(place, UNDER)))
                if at_most < high:
                    steps.append(Step(line, OVER, at_most, Empty(place, OVER)))
                if low < at_least or at_most < high:
                    self.narrow(line, at_least, at_most)
                    todo.update(self.problem.lines[line].edges)
        return steps

    def cut(self, prices: Prices, gap: int) -> list[Step]:
        """Narrows ranges to where the prices do not show that a line would cost too much: each
        drive more than the least costs what the line does beyond the prices of its edges."""
        steps = []
        for place, line in enumerate(self.problem.lines):
            beyond = line.cost - sum(prices.get(edge, 0) for edge in line.edges)
            if beyond > 0 and self.low[place] + -(-gap // beyond) <= self.high[place]:
                at_most = self.low[place] + -(-gap // beyond) - 1
                steps.append(Step(place, OVER, at_most, BoundBy(prices)))
                self.narrow(place, self.low[place], at_most)
        return steps

    def bound(self, prices: Prices) -> int | None:
        """What each concept of the region costs at least by the prices of edges, in whole numbers;
        none where they exceed the cost of a line with several frequencies."""
        for place, line in enumerate(self.problem.lines):
            if self.is_free(place) and sum(prices.get(edge, 0) for edge in line.edges) > line.cost:
                return None
        missing = (
            (self.problem.edges[edge].least - self.least[edge], price)
            for edge, price in prices.items()
        )
        return self.cost() + sum(price * short for short, price in missing if short > 0)

    def best_prices(self) -> tuple[Prices, list[float]]:
        """Good prices, and how often each line would run more than it has to."""
        problem = self.problem
        free = [line for line in range(len(problem.lines)) if self.is_free(line)]
        short = {
            place: edge.least - self.least[place]
            for place, edge in enumerate(problem.edges)
            if edge.least > self.least[place]
        }
        more = [0.0] * len(problem.lines)
        if not short:
            return {}, more
        answer = linprog(
            problem.costs[free],
            A_ub=-problem.matrix[numpy.ix_(list(short), free)],
            b_ub=[-drives for drives in short.values()],
            method="highs",
        )
        if answer.x is None:
            raise Refused(f"HiGHS failed: {answer.message}")
        for line, value in zip(free, answer.x):
            more[line] = float(value)
        prices = {
            edge: max(0, round(-price * MILLION))
            for edge, price in zip(short, answer.ineqlin.marginals)
        }
        return self.rounded(prices, short), more

    def rounded(self, prices: Prices, short: dict[int, int]) -> Prices:
        """Prices that exceed the cost of no line, as high as they can be."""
        slack: dict[int, int] = {}
        for place, line in enumerate(self.problem.lines):
            if not self.is_free(place):
                continue
            slack[place] = line.cost - sum(prices.get(edge, 0) for edge in line.edges)
            for edge in line.edges:
                if slack[place] < 0 and prices.get(edge, 0) > 0:
                    less = min(prices[edge], -slack[place])
                    prices[edge] -= less
                    for other in self.problem.through[edge]:
                        if other in slack:
                            slack[other] += less
        for edge in sorted(short, key=lambda edge: -short[edge]):
            lines = [place for place in self.problem.through[edge] if place in slack]
            more = min(slack[place] for place in lines)
            prices[edge] += more
            for place in lines:
                slack[place] -= more
        return {edge: price for edge, price in sorted(prices.items()) if price > 0}
