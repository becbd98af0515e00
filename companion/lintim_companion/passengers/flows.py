"""The customers of a day on their ways: how many take each activity, and when they arrive.

`basis/OD.giv` has the customers of one period. Each minute of the day has its part of them, and all
of a minute and a pair of stops take the best journey that begins then or later. Customers are whole
numbers of millionths, so that their sums are exact.

On a late day they go as they planned until a change is missed. There they take the best way on from
where they stand: an activity of the day that is left, or any departure of the stop once the minutes
of the change are over.
"""

from collections.abc import Callable, Iterator
from dataclasses import dataclass, field
from typing import Any, NamedTuple

import numpy as np
import numpy.typing as npt

from .net import NEVER, SHIFT, Day, Net, Places, Ways, Wholes, best_starts, ways_to

CELLS = 4_000_000  # of a table of labels, which bounds the memory
LONGEST = 20_160  # minutes that are told apart; more count as these
Truths = npt.NDArray[np.bool_]


@dataclass
class Flows:
    """What customers do on a day: by activity; by event those who start, those who end, those who
    miss a change, of these those who leave for another departure or have none, and those who come
    to this departure so; by minutes and by changes; and by pair of stops those with a journey and
    the sum of their minutes late."""

    by: Wholes
    starts: Wholes
    ends: Wholes
    missed: Wholes
    left: Wholes
    resumed: Wholes
    minutes: Wholes = field(default_factory=lambda: np.zeros(LONGEST + 1, np.int64))
    late: Wholes = field(default_factory=lambda: np.zeros(LONGEST + 1, np.int64))
    changes: dict[int, int] = field(default_factory=dict)
    pairs: list[tuple[int, int, int, int]] = field(default_factory=list)
    without: int = 0
    stranded: int = 0


def no_flows(day: Day) -> Flows:
    """Nobody goes anywhere."""
    starts, ends, missed, left, resumed = np.zeros((5, day.size), np.int64)
    return Flows(np.zeros(len(day.tails), np.int64), starts, ends, missed, left, resumed)


class Late(NamedTuple):
    """What becomes of plans on a late day, for each event and goal: how it ends, where the plan
    breaks at this event, and with which departure one goes on then, -1 where by an activity."""

    ways: Ways
    labels: Wholes
    breaks: Truths
    other: Places


def late_plans(planned: Ways, net: Net) -> Late:
    """What becomes of plans where the times are those of another net."""
    day, ways = net.day, ways_to(net, planned.stops)
    labels = np.full_like(planned.labels, NEVER)
    breaks = (planned.next >= 0) & ~net.is_usable[planned.next]
    other = np.full(planned.next.shape, -1, np.int32)
    restarts = {stop: best_starts(ways, stop) for stop in np.unique(day.stops).tolist()}
    is_end = (planned.next < 0) & (planned.labels < NEVER)
    labels[is_end] = np.broadcast_to(net.times[:, None] << SHIFT, labels.shape)[is_end]
    following, columns = planned.next, np.arange(len(planned.stops))
    for event in day.order[::-1].tolist():
        goes = np.flatnonzero((following[event] >= 0) & ~breaks[event])
        by = following[event, goes]
        cost = np.where(day.leaves[by], net.change, 0)
        labels[event, goes] = np.minimum(labels[day.heads[by], goes] + cost, NEVER)
        if breaks[event].any():
            at = columns[breaks[event]]
            wait = day.lower[following[event, at]]
            found, label = _resumed(net, restarts[int(day.stops[event])], event, at, wait)
            is_other = label < ways.labels[event, at]
            other[event, at] = np.where(is_other, found, -1)
            labels[event, at] = np.where(is_other, label, ways.labels[event, at])
    return Late(ways, labels, breaks, other)


def _resumed(
    net: Net, starts: tuple[Wholes, Wholes, Wholes], event: int, at: Wholes, wait: Wholes
) -> tuple[Wholes, Wholes]:
    """The best departures of the stop of an event, once so many minutes are over, for some goals,
    and their labels with the change to them."""
    times, best, labels = starts
    if not len(times):
        return np.full(len(at), -1), np.full(len(at), NEVER)
    place = np.searchsorted(times, net.times[event] + wait)
    inside = np.minimum(place, len(times) - 1)
    is_there = (place < len(times)) & (best[inside, at] >= 0)
    label = np.where(is_there, labels[inside, at] + net.change, NEVER)
    return np.where(is_there, best[inside, at], -1), np.minimum(label, NEVER)


def spread(customers: Wholes, weights: Wholes, period: int) -> Wholes:
    """How many of each row of customers want to leave in each minute; a minute of weight 100 has
    the period's part of them. The parts are whole, and what is rounded is made up for later."""
    sums = np.cumsum(np.append([0], weights)) / (100 * period)
    until = np.rint(customers[None, :] * sums[:, None]).astype(np.int64)
    found: Wholes = np.diff(until, axis=0)
    return found


class Demand(NamedTuple):
    """The customers of a period by their two stops, in millionths; the first minute of the day, the
    weight of each minute in hundredths, and the minutes of a period."""

    pairs: dict[tuple[int, int], int]
    begin: int
    weights: Wholes
    period: int


def flows_of(
    planned: Net,
    demand: Demand,
    late: Net | None = None,
    tell: Callable[[str], None] = lambda _: None,
) -> Flows:
    """The flows of all customers, by planned times, or on a day that is late."""
    flows = no_flows(planned.day)
    goals = sorted({goal for _, goal in demand.pairs})
    for done, some in _parts(goals, max(1, CELLS // max(1, planned.day.size))):
        tell(f"{done} of {len(goals)} goals")
        ways = ways_to(planned, some)
        _add(flows, ways, late_plans(ways, late) if late else None, demand)
    return flows


def _parts(goals: list[int], size: int) -> Iterator[tuple[int, list[int]]]:
    for begin in range(0, len(goals), size):
        yield begin, goals[begin : begin + size]


def _add(flows: Flows, ways: Ways, late: Late | None, demand: Demand) -> None:
    """Adds the customers to some goals."""
    day, count = ways.net.day, len(ways.stops)
    load = np.zeros((day.size, count), np.int64)
    column = {stop: place for place, stop in enumerate(ways.stops)}
    minutes = demand.begin + np.arange(len(demand.weights))
    by_start: dict[int, list[tuple[int, int]]] = {}
    for (start, goal), customers in demand.pairs.items():
        if goal in column:
            by_start.setdefault(start, []).append((column[goal], customers))
    for start, wanted in sorted(by_start.items()):
        at = np.array([place for place, _ in wanted])
        waiting = spread(np.array([it for _, it in wanted]), demand.weights, demand.period)
        _start(flows, load, ways, late, start, at, waiting, minutes)
    flows.starts += load.sum(axis=1)
    _move(flows, load, ways, late)


def _start(
    flows: Flows,
    load: Wholes,
    ways: Ways,
    late: Late | None,
    start: int,
    at: Wholes,
    waiting: Wholes,
    minutes: Wholes,
) -> None:
    """Lets the customers of a stop begin, and notes how long they need."""
    times, best, _ = best_starts(ways, start)
    events = np.full(waiting.shape, -1)
    place = np.searchsorted(times, minutes)
    is_there = place < len(times)
    if is_there.any():
        events[is_there] = best[np.ix_(place[is_there], at)]
    goes = (events >= 0) & (waiting > 0)
    pair = np.broadcast_to(at, events.shape)[goes]
    who, leave = waiting[goes], np.broadcast_to(minutes[:, None], events.shape)[goes]
    np.add.at(load, (events[goes], pair), who)
    label = (late.labels if late else ways.labels)[events[goes], pair]
    planned = ways.net.minutes(ways.labels[events[goes], pair])
    there = label < NEVER
    arrival = ways.net.minutes(label)
    _count(flows.minutes, (arrival - leave)[there], who[there])
    _count(flows.late, (arrival - planned)[there], who[there])
    for number in np.unique(ways.net.changes(label[there])).tolist():
        some = there & (ways.net.changes(label) == number)
        flows.changes[number] = flows.changes.get(number, 0) + int(who[some].sum())
    flows.without += int(waiting[events < 0].sum())
    flows.stranded += int(who[~there].sum())
    late_by = np.where(there, (arrival - planned) * who, 0)
    for goal in at.tolist():
        is_own = pair == goal
        row = (start, ways.stops[goal])
        flows.pairs.append((*row, int(who[is_own].sum()), int(late_by[is_own].sum())))


def _count(numbers: Wholes, minutes: Wholes, who: Wholes) -> None:
    """Counts customers by minutes; one who is early counts as in time."""
    np.add.at(numbers, np.clip(minutes, 0, LONGEST), who)


def _move(flows: Flows, load: Wholes, ways: Ways, late: Late | None) -> None:
    """Moves customers along their ways, to the end."""
    day = ways.net.day
    breaks = late.breaks if late else np.zeros(load.shape, bool)
    _along(day, load, np.where(breaks, -1, ways.next))
    goes = (ways.next >= 0) & ~breaks
    _sum(flows.by, ways.next[goes], load[goes])
    flows.ends += np.where((ways.next < 0) & (load > 0), load, 0).sum(axis=1)
    if late is None:
        return
    stuck = np.where(breaks, load, 0)
    flows.missed += stuck.sum(axis=1)
    again = np.where((late.other < 0) & (late.ways.labels < NEVER), stuck, 0)
    flows.left += (stuck - again).sum(axis=1)
    rows, columns = np.nonzero((late.other >= 0) & (stuck > 0))
    others = late.other[rows, columns]
    np.add.at(again, (others, columns), stuck[rows, columns])
    _sum(flows.resumed, others, stuck[rows, columns])
    _along(day, again, late.ways.next)
    goes = late.ways.next >= 0
    _sum(flows.by, late.ways.next[goes], again[goes])
    flows.ends += np.where(~goes, again, 0).sum(axis=1)


def _along(day: Day, load: Wholes, following: Places) -> None:
    """Adds to each event those who come to it."""
    heads = day.heads
    for event in day.order.tolist():
        at = np.flatnonzero(load[event] * (following[event] >= 0))
        if at.size:
            load[heads[following[event, at]], at] += load[event, at]


def _sum(into: Wholes, places: npt.NDArray[Any], who: Wholes) -> None:
    """Adds numbers at places, of which some come often."""
    np.add.at(into, places.ravel(), who.ravel())
