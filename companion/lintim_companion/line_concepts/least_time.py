"""Line concepts by which customers travel least minutes, with a penalty for each change (A.
Schöbel and S. Scholl, Line planning with minimal traveling time, ATMOS 2005): as one program over the
change-and-go network, or by columns, which are routes of customers."""

from collections import defaultdict
from collections.abc import Callable
from typing import NamedTuple

import numpy
from scipy.sparse.csgraph import dijkstra

from .. import highs
from ..manners import Deadline, Progress
from .change_and_go import ChangeAndGo, Wish, change_and_go, wishes
from .programs import INFINITE, NoneInTime, Program, Values
from .travel import Travel

MOST_STOPS = 50  # of a network that is one program
MOST_ARCS = 200_000  # of all pairs together in one program
FEW_ARCS = 5_000  # with which it takes a second, so that columns need not come first


class Quick(NamedTuple):
    """A concept, the minutes of all customers with the penalties for changes, what no concept
    can be below, whether it is best, and how it was found."""

    frequencies: list[int]
    minutes: float
    bound: float
    is_best: bool
    way: str


class Search:
    """The best concept so far, by the minutes of all customers."""

    def __init__(self, it: Travel, penalty: int, found: Callable[[list[int]], None]) -> None:
        self.it, self.found = it, found
        self.network = change_and_go(it, penalty)
        self.asked = wishes(it, self.network)
        self.constant = -penalty * it.total
        self.frequencies: list[int] = []
        self.minutes = INFINITE
        self.bound = self.minutes_of([1] * len(it.problem.lines))  # where all lines are driven

    def take(self, values: Values) -> None:
        """Takes a concept that is better than those before, and hands it on."""
        minutes = self.minutes_of(values[0])
        if minutes < self.minutes - 1e-6:
            self.frequencies, self.minutes = values[0], minutes
            self.found(values[0])

    def minutes_of(self, frequencies: list[int]) -> float:
        """The minutes of all customers under a concept, over the change-and-go network."""
        network = self.network
        closed = numpy.array([not often for often in frequencies] + [False])[network.line]
        minutes = numpy.where(closed, INFINITE, network.minutes)
        starts = sorted({wish.start for wish in self.asked})
        found = dijkstra(network.matrix(minutes), indices=starts)
        row = {start: at for at, start in enumerate(starts)}
        sums = (wish.customers * found[row[wish.start], wish.end] for wish in self.asked)
        return float(sum(sums)) + self.constant

    def ended(self, answer: highs.Answer, bound: float | None, way: str) -> Quick:
        """What came of it."""
        if not self.frequencies:
            raise NoneInTime(f"none found in time, HiGHS says: {answer.says}")
        self.bound = bound = max(self.bound, -INFINITE if bound is None else bound)
        is_best = bound >= self.minutes - 1e-6 * max(1.0, self.minutes)
        return Quick(self.frequencies, self.minutes, bound, is_best, way)


def program(it: Travel, network: ChangeAndGo, asked: list[Wish], budget: int | None) -> Program:
    """One program: how often each line is driven, whether it is, and the arcs of each pair."""
    made = Program(it, budget)
    switch = made.switches()
    for wish in asked:
        at_node: dict[int, list[tuple[int, float]]] = defaultdict(list)
        on: dict[int, list[tuple[int, float]]] = defaultdict(list)
        for arc in wish.arcs.tolist():
            at = made.column(wish.customers * float(network.minutes[arc]), 1.0)
            at_node[int(network.tail[arc])].append((at, 1.0))
            at_node[int(network.head[arc])].append((at, -1.0))
            if network.line[arc] >= 0:
                on[int(network.line[arc])].append((at, 1.0))
        for node, through in at_node.items():
            flow = float(node == wish.start) - float(node == wish.end)
            made.row(through, flow, flow)
        for line, through in on.items():
            made.row([*through, (switch + line, -1.0)], -INFINITE, 0)
    return made


def least_time(
    it: Travel,
    penalty: int,
    budget: int | None,
    deadline: Deadline,
    progress: Progress,
    found: Callable[[list[int]], None] = lambda _: None,
    by_columns: bool | None = None,
) -> Quick:
    """A concept of least minutes within a budget, or the best that is found in time. Where nothing
    is said, small networks are one program, larger ones up to 50 stops begin by columns, and beyond
    that there are columns alone."""
    search = Search(it, penalty, found)
    arcs = sum(len(wish.arcs) for wish in search.asked)
    fits = len(search.network.place) <= MOST_STOPS and arcs <= MOST_ARCS
    quick: Quick | None = None
    if by_columns or by_columns is None and (arcs > FEW_ARCS or not fits):
        from .columns import by_routes

        part = Deadline(deadline.left() / 3) if fits and by_columns is None else deadline
        try:
            quick = by_routes(search, budget, part, progress)
        except NoneInTime:
            if by_columns or not fits:
                raise
        if quick and (by_columns or not fits or quick.is_best):
            return quick
    made = program(it, search.network, search.asked, budget)
    answer = made.solve(deadline, progress, search.take, search.constant)
    bound = None if answer.bound is None else answer.bound + search.constant
    return search.ended(answer, bound, "one program")
