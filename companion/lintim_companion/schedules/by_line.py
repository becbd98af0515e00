"""Vehicle schedules in which each vehicle stays with one line, as many operators want it: a
cheapest one among these."""

import numpy
from scipy.optimize import linear_sum_assignment

from ..faults import Refused
from .problem import Successors, VehicleProblem, Whole
from .solve import potentials


def line_based(problem: VehicleProblem) -> Successors:
    """A schedule of least cost in which a trip is followed by trips of its own line alone,
    proved by potentials over the links that are allowed."""
    lines = numpy.array([trip.line for trip in problem.trips], dtype=numpy.int64)
    gains: Whole = numpy.where(lines[:, None] == lines[None, :], problem.gains, 0)
    successors: Successors = [None] * len(lines)
    for i, j in zip(*(it.tolist() for it in linear_sum_assignment(gains, maximize=True))):
        if gains[i, j] > 0:
            successors[i] = j
    u, v = potentials(gains, successors)
    linked = sum(problem.gain(i, j) for i, j in enumerate(successors) if j is not None)
    sums = numpy.array(u, dtype=numpy.int64)[:, None] + numpy.array(v, dtype=numpy.int64)
    if not (sums >= gains).all() or sum(u) + sum(v) != linked or min(u + v, default=0) < 0:
        raise Refused("the schedule that SciPy gave is not the cheapest line-based one")
    return successors
