"""Vehicle schedules of least cost, with potentials that prove it."""

import numpy
from scipy.optimize import linear_sum_assignment

from ..faults import Refused
from .problem import Successors, VehicleProblem, Whole

FAR = numpy.int64(2**60)


def cheapest(problem: VehicleProblem) -> tuple[Successors, list[int], list[int]]:
    """A schedule of least cost, and two numbers for each trip that prove it in whole numbers."""
    gains = problem.gains
    earlier, later = linear_sum_assignment(gains, maximize=True)
    successors: Successors = [None] * len(problem.trips)
    for i, j in zip(earlier.tolist(), later.tolist()):
        if gains[i, j] > 0:
            successors[i] = j
    u, v = potentials(gains, successors)
    if not is_proved(problem, successors, u, v):
        raise Refused("the schedule that SciPy gave is not one of least cost")
    return successors, u, v


def potentials(gains: Whole, successors: Successors) -> tuple[list[int], list[int]]:
    """Two numbers for each trip, u as the earlier and v as the later one of a link: u + v is at
    least the gain of each link, and all of them add up to the gains of the links that are there.

    These are least sums over a graph with a root and two nodes for each trip: a walk from the root
    to a node tells what a change of the schedule would cost there."""
    count = len(successors)
    linked = [(i, j) for i, j in enumerate(successors) if j is not None]
    heads = numpy.array([i for i, _ in linked], dtype=numpy.int64)
    tails = numpy.array([j for _, j in linked], dtype=numpy.int64)
    has_next, has_last = numpy.zeros(count, dtype=bool), numpy.zeros(count, dtype=bool)
    has_next[heads], has_last[tails] = True, True
    cost = numpy.where(gains > 0, -gains, FAR)
    root, left, right = 0, numpy.zeros(count, numpy.int64), numpy.zeros(count, numpy.int64)
    for _ in range(2 * count + 2):
        before = (root, left.copy(), right.copy())
        left[~has_next] = numpy.minimum(left[~has_next], root)
        left[heads] = numpy.minimum(left[heads], right[tails] + gains[heads, tails])
        right = numpy.minimum(right, (left[:, None] + cost).min(axis=0, initial=FAR))
        right[has_last] = numpy.minimum(right[has_last], root)
        root = min([root, *left[has_next].tolist(), *right[~has_last].tolist()])
        if root == before[0] and (left == before[1]).all() and (right == before[2]).all():
            break
    return [max(0, int(p) - root) for p in left], [max(0, root - int(p)) for p in right]


def is_proved(problem: VehicleProblem, successors: Successors, u: list[int], v: list[int]) -> bool:
    """Whether potentials prove in whole numbers that no schedule costs less."""
    sums = numpy.array(u, dtype=numpy.int64)[:, None] + numpy.array(v, dtype=numpy.int64)
    links = [(i, j) for i, j in enumerate(successors) if j is not None]
    is_valid = bool((sums >= problem.gains).all()) and min(u + v, default=0) >= 0
    return is_valid and sum(u) + sum(v) == sum(problem.gain(i, j) for i, j in links)
