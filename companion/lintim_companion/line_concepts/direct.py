"""Line concepts with most direct travellers (M. R. Bussieck, P. Kreuzer and U. T. Zimmermann,
Optimal lines for railway systems, European Journal of Operational Research 96, 1997).

A customer is direct where a line goes from his stop to his goal on a way that takes no more
minutes than any other, and has a seat for him: a line that is driven f times has f vehicles full
of seats over each of its edges, in each direction. Who sits where is part of the program."""

from collections import defaultdict
from collections.abc import Callable
from typing import NamedTuple

from ..manners import Deadline, Progress
from .programs import INFINITE, NoneInTime, Program, Values
from .travel import Pair, Travel

LITTLE = 1e-6  # customers that are none


class Ride(NamedTuple):
    """Customers of a pair may sit in a line from one place among its stops to another one."""

    pair: Pair
    line: int
    start: int
    end: int


class Seated(NamedTuple):
    """A ride, and how many customers take it."""

    ride: Ride
    customers: float


class Best(NamedTuple):
    """A concept, who sits where, how many are direct, how many can be at most, and whether HiGHS
    says that no concept has more."""

    frequencies: list[int]
    seated: list[Seated]
    direct: float
    bound: float
    is_best: bool


def rides(it: Travel) -> list[Ride]:
    """All rides on which somebody would be direct."""
    found = []
    for line, stops in enumerate(it.stops):
        for start, origin in enumerate(stops):
            taken = 0
            for end in range(start + 1, len(stops)):
                taken += it.minutes[line][end - 1]
                for pair, at in (
                    ((origin, stops[end]), (start, end)),
                    ((stops[end], origin), (end, start)),
                ):
                    if pair in it.customers and it.shortest[pair[0]].get(pair[1]) == taken:
                        found.append(Ride(pair, line, *at))
    return found


def program(it: Travel, some: list[Ride], budget: int | None) -> Program:
    """The program: how often each line is driven, and how many customers take each ride."""
    made = Program(it, budget)
    of_pair, over = defaultdict(list), defaultdict(list)
    for ride in some:
        at = made.column(-1.0, it.customers[ride.pair])
        of_pair[ride.pair].append((at, 1.0))
        for place in range(min(ride.start, ride.end), max(ride.start, ride.end)):
            over[ride.line, place, ride.start < ride.end].append((at, 1.0))
    for pair, columns in of_pair.items():
        made.row(columns, 0, it.customers[pair])
    for (line, _, _), columns in over.items():
        made.row([*columns, (line, -float(it.seats))], -INFINITE, 0)
    return made


def most_direct(
    it: Travel,
    budget: int | None,
    deadline: Deadline,
    progress: Progress,
    found: Callable[[list[int]], None] = lambda _: None,
) -> Best:
    """A concept with most direct travellers within a budget of cost in millionths, or the best that
    HiGHS has where time is over; what is found is handed on before it is proved."""
    some = rides(it)
    best: tuple[list[int], list[Seated], float] | None = None

    def take(values: Values) -> None:
        nonlocal best
        seated = [Seated(*one) for one in zip(some, values[1]) if one[1] > LITTLE]
        direct = sum(one.customers for one in seated)
        if best is None or direct > best[2]:
            best = (values[0], seated, direct)
            found(values[0])

    answer = program(it, some, budget).solve(deadline, progress, take)
    if best is None:
        raise NoneInTime(f"none found in {deadline.spent():.0f} s, HiGHS says: {answer.says}")
    bound = it.total if answer.bound is None else min(it.total, -answer.bound)
    return Best(*best, best[2] if answer.is_best else bound, answer.is_best)
