"""What the programs of all models of lines share: rows and columns as they grow, the bounds of all
edges and of the cost, and what is taken from HiGHS."""

from collections.abc import Callable

from .. import highs
from ..cells import MILLION
from ..faults import Refused
from ..manners import Deadline, Progress
from .travel import Travel

INFINITE = float("inf")
Values = tuple[list[int], list[float]]  # how often each line is driven, and the other columns


class NoneInTime(Refused):
    """No concept was found in the time that there is."""


class Program:
    """A program whose first columns say how often each line is driven; each edge has its bounds,
    and all lines together cost no more than a budget in millionths."""

    def __init__(self, it: Travel, budget: int | None) -> None:
        self.it, self.budget = it, budget
        self.cells: list[highs.Cell] = []
        self.least: list[float] = []
        self.most: list[float] = []
        self.costs: list[float] = []
        self.high: list[float] = []
        self.is_whole: list[bool] = []
        for most in it.problem.greatest():
            self.column(0.0, float(most), True)
        for edge, through in zip(it.problem.edges, it.problem.through):
            self.row([(line, 1.0) for line in through], edge.least, edge.most)
        if budget is not None:
            costs = [(at, line.cost / MILLION) for at, line in enumerate(it.problem.lines)]
            self.row([one for one in costs if one[1]], -INFINITE, budget / MILLION)

    def row(self, values: list[tuple[int, float]], least: float, most: float) -> None:
        """Adds a row: columns with their values, and the ends of its sum."""
        self.cells += [highs.Cell(len(self.least), column, value) for column, value in values]
        self.least.append(least)
        self.most.append(most)

    def column(self, cost: float, most: float, is_whole: bool = False) -> int:
        """Adds a column from 0 to a greatest value: its place."""
        self.costs.append(cost)
        self.high.append(most)
        self.is_whole.append(is_whole)
        return len(self.costs) - 1

    def switches(self) -> int:
        """Adds a column for each line, whether it is driven at all: the place of the first."""
        first = len(self.costs)
        for line, most in enumerate(self.it.problem.greatest()):
            self.row(
                [(self.column(0.0, float(min(1, most)), True), 1.0), (line, -1.0)], -INFINITE, 0
            )
        return first

    def mixed(self, constant: float = 0.0) -> highs.Mixed:
        """The program as HiGHS takes it."""
        low = [0.0] * len(self.costs)
        mixed = (self.costs, low, self.high, self.is_whole, self.cells, self.least, self.most)
        return highs.Mixed(*mixed, constant)

    def solve(
        self,
        deadline: Deadline,
        progress: Progress,
        found: Callable[[Values], None],
        constant: float = 0.0,
    ) -> highs.Answer:
        """What HiGHS says; what it finds is looked at and handed on."""

        def take(answer: highs.Answer) -> None:
            found(self._taken(answer.values or []))

        answer = highs.solve(self.mixed(constant), deadline, progress, take)
        if answer.is_infeasible:
            within = "" if self.budget is None else " within the budget"
            raise Refused(f"no concept keeps the bounds of all edges{within}, HiGHS says")
        return answer

    def _taken(self, values: list[float]) -> Values:
        lines = len(self.it.problem.lines)
        frequencies = [round(each) for each in values[:lines]]
        if not self.it.problem.is_feasible(frequencies):
            raise Refused("the concept that HiGHS gave breaks the bounds of an edge")
        if self.budget is not None and self.it.problem.cost(frequencies) > self.budget:
            raise Refused("the concept that HiGHS gave costs more than the budget")
        return frequencies, values[lines:]
