"""Waiting decisions that are worth what they cost people: each change and each arrival counts as
many customers as plan to use it (A. Schöbel, Optimization in Public Transportation, 2006, has the
model with weights).

A decision costs, for each arrival, the customers who get off there times the minutes by which it is
later than planned, and for each dropped change its customers times the penalty. Customers count in
millionths.
"""

from collections.abc import Iterable, Set
from typing import NamedTuple

from .. import highs
from ..cells import MILLION
from ..manners import Deadline, Progress
from ..passengers.flows import Flows
from .core import Core
from .day import Day
from .decision import RULES
from .solve import mixed


class Weights(NamedTuple):
    """The customers who get off at each event, by its place, and those of each change, by id."""

    ends: list[int]
    changes: dict[int, int]


class Choice(NamedTuple):
    """The ids of the changes that are dropped, what that costs in millionths, what none costs less
    than, in customers and minutes, where that is known, and whether HiGHS says that none does."""

    dropped: frozenset[int]
    cost: int
    bound: float | None
    is_best: bool


def weights_of(day: Day, flows: Flows) -> Weights:
    """The weights of a day: customers of the plan who end at an event, and those in each change."""
    of_changes = {it.id: int(flows.by[it.id - 1]) for it in day.changes}
    return Weights(flows.ends.tolist(), of_changes)


def late_customers(day: Day, weights: Weights, times: list[int]) -> int:
    """The minutes by which customers who end at an event are late, together."""
    both = zip(times, day.events, weights.ends)
    return sum((time - event.planned) * who for time, event, who in both if event.is_arrival)


def cost_of(day: Day, weights: Weights, penalty: int, dropped: Set[int]) -> int:
    """What a decision costs, over the whole day. A dropped change that times keep counts too."""
    late = late_customers(day, weights, day.least(dropped))
    return late + penalty * sum(weights.changes[it] for it in dropped)


def broken(core: Core, dropped: Iterable[int]) -> frozenset[int]:
    """Of these changes those which the times break without them."""
    times = core.times({*dropped})
    return frozenset(it.id for it in core.changes if core.is_broken(it, times))


def by_people(
    day: Day, core: Core, weights: Weights, penalty: int, deadline: Deadline, progress: Progress
) -> Choice:
    """A decision of least cost for people, found by HiGHS, and its bound."""
    starts = [broken(core, [it.id for it in core.changes if it.wait > m]) for m in RULES.values()]
    best = min(starts, key=lambda it: cost_of(day, weights, penalty, it))
    cost = cost_of(day, weights, penalty, best)
    if not core.changes:
        return Choice(best, cost, cost / MILLION, True)

    def read(answer: highs.Answer) -> None:
        nonlocal best, cost
        values = (answer.values or [])[len(core.least) :]
        drops = [it.id for it, value in zip(core.changes, values) if value > 0.5]
        other = broken(core, drops)
        if (less := cost_of(day, weights, penalty, other)) < cost:
            best, cost = other, less

    both = zip(core.events, core.is_arrival)
    of_events = [weights.ends[it] / MILLION if is_arrival else 0.0 for it, is_arrival in both]
    of_changes = [penalty * weights.changes[it.id] / MILLION for it in core.changes]
    constant = late_customers(day, weights, day.least(day.ids)) / MILLION
    program = mixed(core, of_events, of_changes, constant)
    answer = highs.solve(program, deadline, progress, read)
    bound = None if answer.bound is None else answer.bound + constant
    return Choice(best, cost, bound, answer.is_best)
