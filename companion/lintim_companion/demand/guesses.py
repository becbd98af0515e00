"""Guesses of how many customers go from stop to stop.

Gravity: in proportion to what both stops weigh, and falling with the square of the least minutes
between them. Counts: the same deterrence, fitted to boardings and alightings by iterative
proportional fitting (W. E. Deming and F. F. Stephan, 1940; K. P. Furness, Time function iteration,
1965). Both after J. D. Ortuzar and L. G. Willumsen, Modelling Transport.
"""

from typing import Any, NamedTuple

import numpy

from ..cells import MILLION
from ..faults import Refused
from ..formats import Demand
from ..limits import LIMITS

Real = Any  # an array of floats
ROUNDS = 1_000
CLOSE = 1e-9
LEAST = 0.001  # customers of a row


class Fitted(NamedTuple):
    """Customers that were fitted to counts, the rounds, and the greatest part of a margin that is
    not met, with the place of its stop."""

    customers: Real
    rounds: int
    apart: float
    place: int


def deterrence(minutes: Real) -> Real:
    """The square of one by the minutes; none from a stop to itself or where no way leads."""
    with numpy.errstate(divide="ignore"):
        found = numpy.where(numpy.isfinite(minutes) & (minutes > 0), minutes, numpy.inf) ** -2.0
    numpy.fill_diagonal(found, 0.0)
    return found


def gravity(weights: Real, minutes: Real) -> Real:
    """Customers in proportion to the weights of both stops."""
    return weights[:, None] * weights[None, :] * deterrence(minutes)


def fitted(boardings: Real, alightings: Real, minutes: Real) -> Fitted:
    """Customers whose sums by stops are the boardings; and the alightings, which are scaled to the
    same total, as far as that is possible."""
    if not boardings.sum() > 0 or not alightings.sum() > 0:
        raise Refused("no boardings or no alightings were counted")
    wanted = alightings * (boardings.sum() / alightings.sum())
    found = deterrence(minutes)
    rounds = 0
    for rounds in range(1, ROUNDS + 1):
        found = found * _factors(boardings, found.sum(axis=1))[:, None]
        found = found * _factors(wanted, found.sum(axis=0))[None, :]
        if abs(found.sum(axis=1) - boardings).max() <= CLOSE * boardings.sum():
            break
    apart = numpy.maximum(
        abs(found.sum(axis=1) - boardings) / numpy.maximum(boardings, 1),
        abs(found.sum(axis=0) - wanted) / numpy.maximum(wanted, 1),
    )
    place = int(apart.argmax())
    return Fitted(found, rounds, float(apart[place]), place)


def _factors(wanted: Real, found: Real) -> Real:
    """By what each row is to be multiplied; nothing where it has no customers."""
    return numpy.divide(wanted, found, out=numpy.zeros_like(wanted), where=found > 0)


def scaled(customers: Real, total: float | None) -> Real:
    """The same, with so many customers in all."""
    found = customers.sum()
    if not found > 0:
        raise Refused("no customer can go from a stop to another one")
    return customers if total is None else customers * (total / found)


def rows_of(customers: Real, stops: list[int]) -> tuple[list[Demand], float]:
    """The rows of `basis/OD.giv`, and which part of the customers they have: rows with less than a
    thousandth of a customer and those beyond the limit of `lintim` are left out, and the others are
    raised to the same total."""
    total = customers.sum()
    flat = customers.ravel()
    most = LIMITS["demand rows"]
    order = numpy.argsort(-flat, kind="stable")[:most]
    order = numpy.sort(order[flat[order] >= LEAST])
    part = flat[order].sum() / total if total else 0.0
    if not part:
        raise Refused(f"each pair of stops has less than {LEAST} customers; take more --customers")
    rows = []
    for at in order:
        count = round(float(flat[at] / part) * 1000) * (MILLION // 1000)
        if count > MILLION * MILLION:
            raise Refused("more than 1000000 customers from one stop to another one")
        if count:
            rows.append(Demand(stops[at // len(stops)], stops[at % len(stops)], count))
    return rows, float(part)
