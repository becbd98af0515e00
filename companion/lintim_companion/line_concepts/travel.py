"""Customers and the lines of a pool: who wants to go where, and which minutes lines take.

A line is driven in both directions. A ride takes the least minutes of the edges that it goes over;
what a vehicle stands at stops is left to the timetable."""

from dataclasses import dataclass

from ..cells import MILLION
from ..dataset import Dataset
from ..faults import Refused
from ..formats import DEMAND, EDGES, LOADS, STOPS
from ..schedules.problem import least_minutes
from .problem import LineProblem, edges_of_lines, line_problem

Pair = tuple[int, int]
Ways = dict[int, list[tuple[int, int]]]  # by stops, the neighbours with minutes


@dataclass(frozen=True)
class Travel:
    """The line problem, the stops along each line with the minutes between them, the customers of
    each pair of stops, and how many a vehicle takes."""

    problem: LineProblem
    stops: list[list[int]]
    minutes: list[list[int]]
    customers: dict[Pair, float]
    seats: int
    shortest: dict[int, dict[int, int]]
    always: Ways

    @property
    def total(self) -> float:
        """All customers."""
        return sum(self.customers.values())


def travel(data: Dataset) -> Travel:
    """Customers and lines of a dataset."""
    customers: dict[Pair, float] = {}
    known = {stop.stop_id for stop in data[STOPS]}
    for row in data.get(DEMAND):
        if row.from_stop not in known or row.to_stop not in known:
            raise Refused(
                f"basis/OD.giv has {row.from_stop}; {row.to_stop}, and no such stop is there"
            )
        if row.customers > 0 and row.from_stop != row.to_stop:
            pair = (row.from_stop, row.to_stop)
            customers[pair] = customers.get(pair, 0.0) + row.customers / MILLION
    if not customers:
        raise Refused("basis/OD.giv has no demand, by which lines could be good for customers")
    edges = {edge.edge_id: edge for edge in data[EDGES]}
    ends = {at: (edge.left_stop, edge.right_stop) for at, edge in edges.items()}
    problem, over = line_problem(data), edges_of_lines(data)
    driven = {load.edge_id for load in data[LOADS] if load.minimal_frequency > 0}
    ways: Ways = {}
    always: Ways = {}
    for at, (left, right) in ends.items():
        for found in (ways, always) if at in driven else (ways,):
            found.setdefault(left, []).append((right, edges[at].lower_bound))
            found.setdefault(right, []).append((left, edges[at].lower_bound))
    return Travel(
        problem,
        [stops_along(ends, over[line.id]) for line in problem.lines],
        [[edges[at].lower_bound for at in over[line.id]] for line in problem.lines],
        customers,
        data.settings.gen_passengers_per_vehicle,
        {origin: least_minutes(ways, origin) for origin in sorted({a for a, _ in customers})},
        always,
    )


def stops_along(ends: dict[int, Pair], edges: list[int]) -> list[int]:
    """The stops of a line, from end to end; the first edge is driven from its left to its right
    stop where the others follow from there."""
    for first in ends[edges[0]]:
        stops = [first]
        for edge in edges:
            if stops[-1] not in ends[edge]:
                break
            left, right = ends[edge]
            stops.append(right if stops[-1] == left else left)
        if len(stops) > len(edges):
            return stops
    raise Refused("a line of the pool has edges that do not meet")
