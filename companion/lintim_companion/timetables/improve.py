"""Times that are made better: routes and times in turn, and then moves that are tried out.

Customers are routed through the times of now, the weighted slack of these routes is made small, and
again, until nothing gets better (M. Siebert and M. Goerigk, An experimental comparison of periodic
timetabling models, 2013). Where routes and times agree, moves of whole lines and runs are tried by
what they do to the value itself; and where none helps, a random move is made, and all is begun anew
from there. The best times so far are never lost."""

import random
from collections.abc import Callable

import numpy

from ..manners import Deadline, Progress, searched
from .descent import Descent
from .moves import BROKEN, Costs, Move, sets_of_events
from .network import PeriodicNetwork, Truth, Whole
from .objective import Objective

GAIN = 1e-9
RESTARTS = (0.3, 0.2)  # of the time that is left, for each of two ways to begin
SEED = 1
MOST_KICKS = 3000  # kicks in a row that helped nothing, after which the search ends


def different_shifts(network: PeriodicNetwork, of: Truth) -> int:
    """How many shifts of a set of lines and directions differ. Where all are driven f times at even
    distances, a shift by a fth part of the period changes nothing but the numbers of runs."""
    runs: dict[int, set[int]] = {int(group): set() for group in numpy.unique(network.group[of])}
    for group, run in zip(network.group[of], network.run[of]):
        runs[int(group)].add(int(run))
    (count, *others) = {len(it) for it in runs.values()}
    ends = of[network.first] & of[network.second]
    sync = network.of_kind("sync") & ends
    is_even = not others and network.period % count == 0
    is_even &= bool((network.upper[sync] == network.lower[sync]).all())
    return network.period // count if is_even else network.period


class Search:
    """A search from times that keep all bounds. `found` is told of each better timetable."""

    def __init__(
        self,
        network: PeriodicNetwork,
        objective: Objective,
        deadline: Deadline,
        progress: Progress,
        found: Callable[[Whole], None],
    ) -> None:
        self.network, self.objective = network, objective
        self.deadline, self.progress, self.found = deadline, progress, found
        self.sets = sets_of_events(network)
        lines = len(numpy.unique(network.line)) + len(numpy.unique(network.group))
        self.large: list[Truth] = self.sets[:lines]
        self.turns = [different_shifts(network, it) for it in self.large]
        self.chance = random.Random(SEED)
        self.best: Whole = numpy.zeros(network.events, dtype=numpy.int64)
        self.least = float("inf")

    def is_over(self) -> bool:
        """Whether no time is left."""
        self.progress.tell(lambda: searched(f"{self.least:.3f}", None, None))
        return self.deadline.is_over()

    def take(self, times: Whole, value: float) -> bool:
        """Keeps times where they are the best so far."""
        if value < self.least - GAIN and self.network.is_kept(times):
            self.best, self.least = times.copy(), value
            self.found(self.best)
            return True
        return False

    def run(self, start: Whole) -> Whole:
        """The best times that are found from a start, which is one of them."""
        self.take(start, self.objective.value(start))
        self.from_short_changes(start)
        self.alternate(self.best.copy())
        while self.try_moves() and not self.is_over():
            self.alternate(self.best.copy())
        self.kicks()
        return self.best

    def from_short_changes(self, start: Whole) -> None:
        """Other places to begin at: times in which changes are short, each alike, or by customers."""
        each = self.network.of_kind("change").astype(float)
        near = self.objective.weighted(start)
        ways = ((self.network, each), (near.network, near.weights))
        for (network, weights), part in zip(ways, RESTARTS):
            costs = Costs(network, weights, self.large)
            self.alternate(self.by_restarts(costs, start, Deadline(part * self.deadline.left())))

    def by_restarts(self, costs: Costs, start: Whole, part: Deadline) -> Whole:
        """The best of many descents by shifts of whole lines and directions, each from random
        shifts of the start."""
        descent, times, best = Descent(costs), start.copy(), start
        while not self.is_over():
            descent.down(times, self.is_over)
            if costs.total(times) < costs.total(best):
                best = times.copy()
                self.take(best, self.objective.value(best))
            if part.is_over():
                break
            times = start.copy()
            for of in self.large:
                by = self.chance.randrange(self.network.period)
                times[of] = (times[of] + by) % self.network.period
        return best.copy()

    def costs(self, times: Whole) -> Costs:
        """What activities cost near these times."""
        near = self.objective.weighted(times)
        return Costs(near.network, near.weights, self.sets)

    def alternate(self, times: Whole) -> tuple[Whole, float]:
        """Routes and times in turn, until nothing gets better; gives where that ended."""
        value = self.objective.value(times)
        self.take(times, value)
        while not self.is_over():
            after = times.copy()
            Descent(self.costs(times)).down(after, self.is_over)
            reached = self.objective.value(after)
            if reached >= value - GAIN:
                break
            times, value = after, reached
            self.take(times, value)
        return times, value

    def try_moves(self) -> bool:
        """Tries each shift of each large set by the value itself, those first that cost least by
        the weights; whether one helped."""
        costs, helped = self.costs(self.best), False
        places = list(range(len(self.large)))
        self.chance.shuffle(places)
        for place in places:
            move = costs.moves[place]
            by_shift = costs.by_shift(move, costs.slack(self.best))
            for by in numpy.argsort(by_shift[: self.turns[place]], kind="stable"):
                if self.is_over():
                    return helped
                if by and by_shift[by] < BROKEN:
                    times = self.shifted(move, self.best, int(by))
                    helped |= self.take(times, self.objective.value(times))
            if helped:
                costs = self.costs(self.best)
        return helped

    def shifted(self, move: Move, times: Whole, by: int) -> Whole:
        """Times after a shift of a set of events."""
        after = times.copy()
        after[move.events] = (after[move.events] + by) % self.network.period
        return after

    def kicks(self) -> None:
        """Random moves from the best times, with routes and times in turn after each."""
        in_vain = 0
        while in_vain < MOST_KICKS and not self.is_over():
            costs, times = self.costs(self.best), self.best.copy()
            descent = Descent(costs)
            for _ in range(self.chance.choice((1, 1, 2, 3))):
                descent.kick(times, self.chance)
            _, value = self.alternate(times)
            in_vain = in_vain + 1 if value > self.least + GAIN else 0
            if value <= self.least + GAIN and self.best is not times:
                self.try_some()

    def try_some(self) -> None:
        """Tries single moves by the value itself after a success."""
        if not self.is_over():
            self.try_moves()
