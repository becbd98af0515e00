"""Local search over moves: a descent until no move helps, and random kicks between descents."""

import random
from collections.abc import Callable

import numpy

from .moves import BROKEN, Costs, Move
from .network import Whole

LEAST_GAIN = 1e-7


class Descent:
    """A descent under costs. A move is looked at again only where an activity of it has changed."""

    def __init__(self, costs: Costs) -> None:
        self.costs = costs
        activities = [numpy.concatenate([move.into, move.out]) for move in costs.moves]
        places = numpy.repeat(numpy.arange(len(activities)), [len(it) for it in activities])
        joined = numpy.concatenate([*activities, numpy.array([], dtype=numpy.int64)])
        order = numpy.argsort(joined, kind="stable")
        self.moves_of = places[order]
        counts = numpy.bincount(joined, minlength=len(costs.counts))
        self.begin = numpy.concatenate([[0], numpy.cumsum(counts)])

    def _look_again(
        self, move: Move, waiting: "numpy.ndarray[tuple[int], numpy.dtype[numpy.bool_]]"
    ) -> None:
        for activity in numpy.concatenate([move.into, move.out]):
            waiting[self.moves_of[self.begin[activity] : self.begin[activity + 1]]] = True

    def down(self, times: Whole, is_over: Callable[[], bool], begin: Move | None = None) -> None:
        """Changes times until no move helps, or time is over. With a move to begin at, all but what
        touches it is taken to be at rest."""
        slack = self.costs.slack(times)
        waiting = numpy.full(len(self.costs.moves), begin is None)
        if begin is not None:
            self._look_again(begin, waiting)
        while (places := numpy.flatnonzero(waiting)).size and not is_over():
            for place in places:
                waiting[place] = False
                move = self.costs.moves[place]
                by_shift = self.costs.by_shift(move, slack)
                best = int(by_shift.argmin())
                if by_shift[best] < by_shift[0] - LEAST_GAIN:
                    self.costs.shift(move, times, slack, best)
                    self._look_again(move, waiting)
                if is_over():
                    return

    def kick(self, times: Whole, chance: random.Random) -> Move | None:
        """Makes a random move that breaks no bound; none where none was found."""
        slack = self.costs.slack(times)
        for _ in range(20):
            move = self.costs.moves[chance.randrange(len(self.costs.moves))]
            allowed = numpy.flatnonzero(self.costs.by_shift(move, slack) < BROKEN)
            allowed = allowed[allowed > 0]
            if allowed.size:
                by = int(allowed[chance.randrange(allowed.size)])
                self.costs.shift(move, times, slack, by)
                return move
        return None
