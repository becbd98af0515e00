"""What rules and optima of waiting decisions mean for people, in one table."""

from collections.abc import Iterator
from typing import NamedTuple

import numpy as np

from ..cells import MILLION
from ..passengers.flows import Demand, flows_of
from ..passengers.net import Net
from .core import Core
from .day import Day
from .decision import RULES
from .people import Weights, broken, cost_of


class Row(NamedTuple):
    """A decision: its name, what it costs people at the penalty, the minutes late of each customer
    where those who miss a change take the next best journey, the customers who miss one, and how
    many changes are kept of how many that can be broken."""

    name: str
    cost: float
    late: float
    missed: float
    kept: int
    changes: int


def rows(
    day: Day,
    core: Core,
    weights: Weights,
    penalty: int,
    optima: dict[str, frozenset[int]],
    planned: Net,
    demand: Demand,
) -> Iterator[Row]:
    """The rows of the rules and of the optima."""
    rules = {
        name: broken(core, [it.id for it in core.changes if it.wait > most])
        for name, most in RULES.items()
    }
    for name, dropped in (rules | optima).items():
        times = np.array(day.least(dropped), np.int64)
        flows = flows_of(planned, demand, Net(planned.day, times))
        minutes = float((np.arange(len(flows.late)) * flows.late.astype(float)).sum())
        arrived = int(flows.late.sum())
        cost = cost_of(day, weights, penalty, dropped) / MILLION
        missed = int(flows.missed.sum()) / MILLION
        kept = len(core.changes) - len(dropped)
        late = minutes / arrived if arrived else 0.0
        yield Row(name, cost, late, missed, kept, len(core.changes))


def line(row: Row) -> str:
    """A row in words."""
    return (
        f"{row.name}: cost {row.cost:.1f}, {row.late:.3f} minutes late per customer,"
        f" {row.missed:.1f} miss a change, {row.kept} of {row.changes} changes kept"
    )
