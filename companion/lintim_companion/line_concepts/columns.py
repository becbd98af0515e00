"""The least time of customers by columns: routes are made where the prices of lines want them,
until no further route would help (the program without whole numbers); then the best whole
numbers among these routes are sought. What the first part says is a bound for all concepts."""

from collections import defaultdict
from typing import NamedTuple

import numpy
from numpy.typing import NDArray
from scipy.optimize import linprog
from scipy.sparse import csr_matrix, vstack
from scipy.sparse.csgraph import dijkstra

from ..faults import Refused
from ..manners import Deadline, Progress
from .change_and_go import ChangeAndGo, Wish
from .least_time import Quick, Search
from .programs import INFINITE, Program

Real = NDArray[numpy.float64]
LITTLE = 1e-7
PART = 0.5  # of the time is for routes at most


class Route(NamedTuple):
    """A route of a pair: its minutes with penalties, and the lines on which one rides."""

    wish: int
    minutes: float
    lines: tuple[int, ...]


class Prices(NamedTuple):
    """What a program without whole numbers says: its value, the price of each pair, and of each
    pair on each line."""

    value: float
    pairs: Real
    lines: dict[tuple[int, int], float]


def by_routes(search: Search, budget: int | None, deadline: Deadline, progress: Progress) -> Quick:
    """A concept of least minutes by routes, or the best that is found in time."""
    asked = search.asked
    routes = {Route(at, wish.worst, ()): None for at, wish in enumerate(asked)}
    subs = [_arcs_of(search.network, wish) for wish in asked]
    every: Real = numpy.zeros(len(search.it.problem.lines))
    routes |= {_route(at, wish, subs[at], every)[0]: None for at, wish in enumerate(asked)}
    bound, rounds = -INFINITE, 0
    half = Deadline(PART * deadline.left())
    while not half.is_over():
        prices = _prices(search, [*routes], budget, half)
        if prices is None:
            break
        better, gain = _better(search, subs, prices)
        bound, rounds = max(bound, prices.value - gain), rounds + 1
        progress.tell(f"round {rounds}, {len(routes)} routes, bound {bound + search.constant:g}")
        new = [route for route in better if route not in routes]
        if not new:
            break
        routes.update((route, None) for route in new)
    answer = _program(search, [*routes], budget).made.solve(
        deadline, progress, search.take, search.constant
    )
    told = None if bound == -INFINITE else bound + search.constant
    return search.ended(answer, told, "columns")


class Part(NamedTuple):
    """The arcs of a pair, with nodes of its own."""

    tail: NDArray[numpy.int64]
    head: NDArray[numpy.int64]
    minutes: Real
    line: NDArray[numpy.int64]
    start: int
    end: int
    nodes: int
    arcs: dict[tuple[int, int], int]


def _arcs_of(network: ChangeAndGo, wish: Wish) -> Part:
    """The arcs that are of use to a pair."""
    tail, head = network.tail[wish.arcs], network.head[wish.arcs]
    nodes, places = numpy.unique(
        numpy.concatenate([tail, head, [wish.start, wish.end]]), return_inverse=True
    )
    count = len(tail)
    start, end = int(places[-2]), int(places[-1])
    cut = places[:count], places[count : 2 * count]
    arcs = {ends: arc for arc, ends in enumerate(zip(cut[0].tolist(), cut[1].tolist()))}
    minutes, line = network.minutes[wish.arcs], network.line[wish.arcs]
    return Part(*cut, minutes, line, start, end, len(nodes), arcs)


def _route(at: int, wish: Wish, part: Part, prices: Real) -> tuple[Route, float]:
    """The best route of a pair under prices of lines for a customer, and what it comes to."""
    extra = numpy.where(part.line >= 0, prices[part.line], 0.0)
    weights = numpy.maximum(part.minutes + extra, LITTLE)
    shape = (part.nodes, part.nodes)
    matrix = csr_matrix((weights, (part.tail, part.head)), shape=shape)
    found, before = dijkstra(matrix, indices=part.start, return_predecessors=True)
    if not numpy.isfinite(found[part.end]):
        return Route(at, wish.worst, ()), wish.worst
    minutes, lines, node = 0.0, set(), part.end
    while node != part.start:
        arc = part.arcs[int(before[node]), node]
        minutes += float(part.minutes[arc])
        if part.line[arc] >= 0:
            lines.add(int(part.line[arc]))
        node = int(before[node])
    return Route(at, minutes, tuple(sorted(lines))), float(found[part.end])


def _better(search: Search, subs: list[Part], prices: Prices) -> tuple[list[Route], float]:
    """Routes that would help under some prices, and by how much all of them at most."""
    found, gain = [], 0.0
    of_wish: dict[int, dict[int, float]] = defaultdict(dict)
    for (at, line), price in prices.lines.items():
        of_wish[at][line] = price
    count = len(search.it.problem.lines)
    for at, wish in enumerate(search.asked):
        each: Real = numpy.zeros(count)
        for line, price in of_wish[at].items():
            each[line] = max(0.0, price) / wish.customers
        route, least = _route(at, wish, subs[at], each)
        short = float(prices.pairs[at]) - wish.customers * min(least, wish.worst)
        if short > LITTLE * max(1.0, wish.customers):
            found.append(route)
        gain += max(0.0, short)
    return found, gain


class Master(NamedTuple):
    """The program over some routes, its first row of a pair, and the pairs on lines in the order of
    their rows, which come after."""

    made: Program
    first: int
    on: list[tuple[int, int]]


def _program(search: Search, routes: list[Route], budget: int | None) -> Master:
    """The program over some routes."""
    made = Program(search.it, budget)
    switch = made.switches()
    of_wish: dict[int, list[tuple[int, float]]] = defaultdict(list)
    on: dict[tuple[int, int], list[tuple[int, float]]] = defaultdict(list)
    for route in routes:
        column = made.column(search.asked[route.wish].customers * route.minutes, 1.0)
        of_wish[route.wish].append((column, 1.0))
        for line in route.lines:
            on[route.wish, line].append((column, 1.0))
    first = len(made.least)
    for at in range(len(search.asked)):
        made.row(of_wish[at], 1.0, 1.0)
    for (_, line), columns in on.items():
        made.row([*columns, (switch + line, -1.0)], -INFINITE, 0)
    return Master(made, first, [*on])


def _prices(
    search: Search, routes: list[Route], budget: int | None, deadline: Deadline
) -> Prices | None:
    """What the program says without whole numbers; none where time is over."""
    made, first, on = _program(search, routes, budget)
    rows, columns, values = zip(*made.cells)
    shape = (len(made.least), len(made.costs))
    matrix = csr_matrix((numpy.array(values), (rows, columns)), shape=shape)
    least, most = numpy.array(made.least), numpy.array(made.most)
    same = least == most
    above, below = ~same & numpy.isfinite(most), ~same & numpy.isfinite(least)
    got = linprog(
        made.costs,
        A_ub=vstack([matrix[above], -matrix[below]]),
        b_ub=numpy.concatenate([most[above], -least[below]]),
        A_eq=matrix[same],
        b_eq=least[same],
        bounds=list(zip([0.0] * len(made.high), made.high)),
        method="highs",
        options={"time_limit": max(0.1, deadline.left())},
    )
    if got.status == 2:
        raise Refused("no concept keeps the bounds of all edges within the budget, HiGHS says")
    if got.status != 0:
        return None
    dual: Real = numpy.zeros(len(least))
    dual[same] = got.eqlin.marginals
    dual[above] = got.ineqlin.marginals[: int(above.sum())]
    pairs = dual[first : first + len(search.asked)]
    prices = (-dual[first + len(search.asked) :]).tolist()
    return Prices(float(got.fun), pairs, dict(zip(on, prices)))
