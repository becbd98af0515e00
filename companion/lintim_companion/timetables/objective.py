"""What a timetable is compared by, and the weights under which it is made better."""

from dataclasses import dataclass
from typing import Protocol

import numpy

from .network import PeriodicNetwork, Real, Whole
from .routes import Router
from .turnarounds import Terminals, with_turnarounds


@dataclass(frozen=True)
class Weighted:
    """A network with a weight on each activity, which is right near the times it was made for."""

    network: PeriodicNetwork
    weights: Real


class Objective(Protocol):
    """A value of times, less is better; and weights whose slack stands for it near given times."""

    def customers(self, times: Whole) -> float:
        """How many times the value the weights add up to: the customers, where it is their mean."""

    def value(self, times: Whole) -> float:
        """What the times are compared by."""

    def weighted(self, times: Whole) -> Weighted:
        """The weights near these times."""


class OwnWeights:
    """The sum of slack under weights that a file names."""

    def __init__(self, network: PeriodicNetwork, weights: Real) -> None:
        self.network, self.weights = network, weights

    def customers(self, times: Whole) -> float:
        """The value is the sum itself."""
        return 1.0

    def value(self, times: Whole) -> float:
        """The weighted sum of slack."""
        return float(self.weights @ self.network.slack(times))

    def weighted(self, times: Whole) -> Weighted:
        """The same weights for all times."""
        return Weighted(self.network, self.weights)


class OfCustomers:
    """The mean minutes of customers, over all minutes at which they may want to leave."""

    def __init__(self, router: Router) -> None:
        self.router = router

    def customers(self, times: Whole) -> float:
        """How many customers have a route."""
        return self.router.route(times).routed or 1.0

    def value(self, times: Whole) -> float:
        """The mean minutes, with penalties for changes."""
        return self.router.mean(times)

    def weighted(self, times: Whole) -> Weighted:
        """Customers on each activity, by the routes that they take under these times."""
        return Weighted(self.router.network, self.router.route(times).weights)


A_VEHICLE = 0.03  # of the value at the start: what a vehicle more may make better elsewhere


class WithTurnarounds:
    """Another objective, and minutes of turnarounds beside it. A period of them is a vehicle, which
    counts for a part of the value that the other objective has at the start."""

    def __init__(
        self, of: Objective, network: PeriodicNetwork, at: Terminals, start: Whole
    ) -> None:
        self.of, self.network, self.at = of, network, at
        self.unit = A_VEHICLE * (of.value(start) or 1.0) / network.period
        self.weight = self.unit * of.customers(start)

    def customers(self, times: Whole) -> float:
        """As in the other one."""
        return self.of.customers(times)

    def value(self, times: Whole) -> float:
        """The value of the other one, and the weighted minutes of turnarounds."""
        _, _, slack = self.at.matched(self.network.period, times)
        return self.of.value(times) + self.unit * slack

    def weighted(self, times: Whole) -> Weighted:
        """The weights of the other one, and one weight for each turnaround as matched now."""
        network = with_turnarounds(self.network, self.at, times)
        turns = numpy.full(len(network.lower) - len(self.network.lower), self.weight)
        return Weighted(network, numpy.concatenate([self.of.weighted(times).weights, turns]))
