"""Line problems without a feasible concept: by how much edges would be driven too often at least.

The bounds of edges are made elastic: the least frequencies hold, and what goes beyond the greatest
ones is least in sum (elastic programming: J. W. Chinneck, Feasibility and Infeasibility in
Optimization, 2008). HiGHS solves these small problems, by SciPy.
"""

from collections.abc import Iterator, Sequence

import numpy
from numpy.typing import NDArray
from scipy.optimize import Bounds, LinearConstraint, milp

from ..cells import MILLION
from ..faults import Refused
from ..formats import Load
from ..line_concepts.problem import LineProblem
from ..manners import Deadline, Progress

MOST_DRIVES = 1_000
Vector = NDArray[numpy.float64]


class NoTime(Refused):
    """HiGHS found no answer in time."""


def _solved(
    costs: Vector, matrix: Vector, least: Vector, most: Vector, deadline: Deadline
) -> Vector | None:
    """Whole values from 0 with least costs, whose sums by the matrix are between two ends; none
    where there are no such values."""
    if deadline.is_over():
        raise NoTime("no time was left")
    got = milp(
        costs,
        integrality=numpy.ones(len(costs)),
        bounds=Bounds(0, MOST_DRIVES * 1_000),
        constraints=[LinearConstraint(matrix, least, most)] if len(least) else [],
        options={"time_limit": max(0.1, deadline.left()), "mip_rel_gap": 0},
    )
    if got.status == 2:
        return None
    if got.x is None or got.status != 0:
        raise NoTime(f"HiGHS found no answer: {got.message}")
    values: Vector = numpy.round(got.x)
    return values


def _ends(problem: LineProblem) -> tuple[Vector, Vector]:
    least = numpy.array([edge.least for edge in problem.edges], dtype=float)
    most = numpy.array([edge.most for edge in problem.edges], dtype=float)
    return least, most


def bare_edges(problem: LineProblem) -> list[int]:
    """The places of edges that are to be driven and that no line goes over."""
    return [at for at, edge in enumerate(problem.edges) if edge.least and not problem.through[at]]


def is_feasible(problem: LineProblem, deadline: Deadline) -> bool:
    """Whether there is a concept, as HiGHS says."""
    return is_possible(problem.matrix, *_ends(problem), deadline)


def is_possible(matrix: Vector, least: Vector, most: Vector, deadline: Deadline) -> bool:
    """Whether lines can drive each edge between so many times."""
    if not matrix.shape[1]:
        return not least.any()
    return _solved(numpy.zeros(matrix.shape[1]), matrix, least, most, deadline) is not None


def least_excess(problem: LineProblem, deadline: Deadline) -> dict[int, int]:
    """The places of edges that are driven too often, and by how many drives, where these are least
    in sum over all concepts that drive each edge often enough."""
    least, most = _ends(problem)
    edges, lines = problem.matrix.shape
    both = numpy.vstack(
        [
            numpy.hstack([problem.matrix, numpy.zeros((edges, edges))]),
            numpy.hstack([problem.matrix, -numpy.eye(edges)]),
        ]
    )
    costs = numpy.r_[numpy.zeros(lines), numpy.ones(edges)]
    low = numpy.r_[least, numpy.full(edges, -numpy.inf)]
    high = numpy.r_[numpy.full(edges, numpy.inf), most]
    values = _solved(costs, both, low, high, deadline)
    excess = [] if values is None else [int(over) for over in values[lines:]]
    return {at: over for at, over in enumerate(excess) if over > 0}


def least_spread(problem: LineProblem, deadline: Deadline) -> int | None:
    """The least number of drives by which the greatest frequency of each edge has to be beyond its
    least one, so that there is a concept."""
    least, _ = _ends(problem)
    edges, lines = problem.matrix.shape
    both = numpy.vstack(
        [
            numpy.hstack([problem.matrix, numpy.zeros((edges, 1))]),
            numpy.hstack([problem.matrix, -numpy.ones((edges, 1))]),
        ]
    )
    costs = numpy.r_[numpy.zeros(lines), 1.0]
    low = numpy.r_[least, numpy.full(edges, -numpy.inf)]
    high = numpy.r_[numpy.full(edges, numpy.inf), least]
    values = _solved(costs, both, low, high, deadline)
    spread = None if values is None else int(values[-1])
    is_allowed = spread is not None and spread + least.max(initial=0) <= MOST_DRIVES
    return spread if is_allowed else None


def least_capacity(
    problem: LineProblem,
    loads: Sequence[Load],
    spread: int,
    capacity: int,
    deadline: Deadline,
    progress: Progress,
) -> int | None:
    """The least number of customers in a vehicle, above a given one, with which there is a concept;
    none where there is no such number, or time is over. More customers in a vehicle make the least
    and the greatest frequencies smaller, so each number counts at which some least one changes."""
    for customers in _capacities(loads, capacity):
        least: Vector = numpy.array([float(_drives(load.load, customers)) for load in loads])
        most: Vector = least + float(spread)
        progress.tell(f"{customers} customers in a vehicle")
        try:
            if is_possible(problem.matrix, least, most, deadline):
                return customers
        except NoTime:
            return None
    return None


def _drives(load: int, customers: int) -> int:
    return -(-load // (customers * MILLION))


def _capacities(loads: Sequence[Load], capacity: int) -> Iterator[int]:
    """The numbers above a given one from which on some least frequency is another."""
    found = set()
    for load in loads:
        for drives in range(1, _drives(load.load, capacity)):
            found.add(-(-load.load // (drives * MILLION)))
    yield from sorted(at for at in found if capacity < at <= 100_000)
