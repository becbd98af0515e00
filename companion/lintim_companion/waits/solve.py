"""Waiting decisions of least cost: found by HiGHS, and proved by a tree."""

from collections.abc import Callable, Iterable

from .. import highs
from ..manners import Deadline, Progress
from .core import Core
from .decision import Decision, by_rules, decision
from .tree import Cheaper, Late, Tree

Found = Callable[[Decision], None]


def cheapest(
    core: Core,
    penalty: int,
    deadline: Deadline,
    progress: Progress,
    found: Found = lambda _: None,
    starts: Iterable[Decision] = (),
) -> tuple[Decision, bool]:
    """A decision of least cost, and whether HiGHS says that none costs less. It begins with the
    decisions that are given and those of the plain rules; each one that is cheaper than those
    before is handed to `found`."""
    best = min((*starts, *by_rules(core, penalty).values()), key=lambda it: it.cost)
    found(best)
    if not core.changes:
        return best, True

    def read(answer: highs.Answer) -> None:
        nonlocal best
        values = (answer.values or [])[len(core.least) :]
        dropped = (it.id for it, value in zip(core.changes, values) if value > 0.5)
        other = decision(core, penalty, dropped)
        if other.cost < best.cost:
            best = other
            found(best)

    dear = [*map(float, core.is_arrival)], [float(penalty)] * len(core.changes)
    answer = highs.solve(mixed(core, *dear, core.delay), deadline, progress, read)
    return best, answer.is_best


def mixed(
    core: Core, of_events: list[float], of_changes: list[float], constant: float
) -> highs.Mixed:
    """The program, with what a minute of each event, a dropped change and the least times cost: how much later than its earliest time each event is, and which changes are
    dropped. A change that is dropped asks nothing, by so many minutes as it could ask at most."""
    events, changes = len(core.least), len(core.changes)
    cells: list[highs.Cell] = []
    asked: list[float] = []

    def ask(second: int, first: int, minutes: int, change: int = -1) -> None:
        row = len(asked)
        cells.append(highs.Cell(row, second, 1))
        room = 0
        if first >= 0:
            cells.append(highs.Cell(row, first, -1))
            minutes += core.least[first]
            room = core.most[first] - core.least[first]
        minutes -= core.least[second]
        asked.append(minutes)
        if change >= 0:
            cells.append(highs.Cell(row, events + change, minutes + room))

    for first, ways in enumerate(core.ways):
        for way in ways:
            if way.change < 0:
                ask(way.second, first, way.minutes)
    for place, change in enumerate(core.changes):
        ask(change.second, change.first, change.minutes, place)
    rooms = (most - least for most, least in zip(core.most, core.least))
    return highs.Mixed(
        costs=[*of_events, *of_changes],
        low=[0.0] * (events + changes),
        high=[*map(float, rooms), *[1.0] * changes],
        is_whole=[False] * events + [True] * changes,
        cells=cells,
        least=asked,
        most=[float("inf")] * len(asked),
        constant=constant,
    )


def proved(
    core: Core,
    penalty: int,
    best: Decision,
    most: int,
    deadline: Deadline,
    progress: Progress,
    found: Found = lambda _: None,
) -> tuple[Decision, list[int] | None]:
    """A decision of least cost, and the nodes of the tree that proves it, at most so many; none
    where there are more or time is over. A cheaper decision that is met on the way takes the place
    of the first one."""
    while True:
        try:
            return best, Tree(core, penalty, best.cost, deadline).grow(most, progress)
        except Cheaper as other:
            best = decision(core, penalty, other.dropped)
            found(best)
        except Late:
            return best, None
