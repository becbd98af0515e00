"""Waiting decisions: which changes are dropped, what that costs, and the rows that tell it."""

import math
from collections.abc import Iterable
from typing import NamedTuple

from ..dataset import Dataset
from ..faults import Refused
from ..formats import WAITS, WaitRow
from .core import Core
from .day import Day

RULES: dict[str, float] = {"none": -math.inf, "3": 3, "5": 5, "all": math.inf}


class Decision(NamedTuple):
    """The ids of the changes that are dropped, and what the decision costs at a penalty."""

    dropped: frozenset[int]
    cost: int


def decision(core: Core, penalty: int, dropped: Iterable[int]) -> Decision:
    """The decision that drops of these changes those which the times break without them; the
    others are kept at no cost."""
    times = core.times(set(dropped))
    broken = frozenset(change.id for change in core.changes if core.is_broken(change, times))
    return Decision(broken, core.late(times) + penalty * len(broken))


def by_rules(core: Core, penalty: int) -> dict[str, Decision]:
    """The decisions of the plain rules `none`, 3, 5 and `all` of the setting `dm_wait`: a change is
    dropped where its departure would wait longer."""
    return {
        name: decision(core, penalty, (it.id for it in core.changes if it.wait > most))
        for name, most in RULES.items()
    }


def saved_decision(
    data: Dataset, day: Day, core: Core, penalty: int
) -> tuple[Decision, bool] | None:
    """The decision that is saved, where it speaks of the changes of this day, and whether its rows
    tell its cost at this penalty."""
    try:
        rows = data.get(WAITS).rows
    except Refused:
        return None
    decided = [row for row in rows if row.kind in ("keep", "drop")]
    if not rows or {row.id for row in decided} != day.ids:
        return None
    found = decision(core, penalty, (row.id for row in decided if row.kind == "drop"))
    return found, rows[0] == WaitRow("cost", 0, found.cost)


def decision_rows(day: Day, decided: Decision, nodes: Iterable[int] = ()) -> list[WaitRow]:
    """The rows of a decision, and of the tree that proves it: of each node the id of the change
    that is split, or 0 for a leaf."""
    rows = [WaitRow("cost", 0, decided.cost)]
    rows += [WaitRow("drop" if id in decided.dropped else "keep", id, 0) for id in sorted(day.ids)]
    rows += [WaitRow("split" if id else "leaf", id, 0) for id in nodes]
    return rows
