"""The trips of a day, which of them may follow which in a vehicle, and what that gains.

A link puts two trips one after the other into a vehicle. Its gain is the price of a vehicle less
that of the empty minutes between the trips. So a cheapest schedule is a matching of greatest gain.
"""

import heapq
from collections.abc import Iterator

import numpy
from numpy.typing import NDArray

from ..dataset import Dataset
from ..formats import EDGES, TRIPS, Potential, ScheduleRow, Trip

Whole = NDArray[numpy.int64]
Successors = list[int | None]  # by trips, which one follows in its vehicle
FAR = 2**40  # minutes between stops that no walk joins


class VehicleProblem:
    """The trips, and what an empty drive between two of them takes and gains."""

    def __init__(
        self, trips: list[Trip], reach: dict[int, dict[int, int]], costs: tuple[int, int, int]
    ) -> None:
        self.trips = trips
        self.turnover, self.vehicle, self.empty = costs
        starts = numpy.array([trip.start_time for trip in trips], dtype=numpy.int64)
        ends = numpy.array([trip.end_time for trip in trips], dtype=numpy.int64)
        self.dead: Whole = numpy.array(
            [[reach[one.end_stop].get(other.start_stop, FAR) for other in trips] for one in trips],
            dtype=numpy.int64,
        ).reshape(len(trips), len(trips))
        self.may_follow = ends[:, None] + self.turnover + self.dead <= starts[None, :]
        dear = self.vehicle // max(1, self.empty) + 1  # so many empty minutes gain nothing
        gains = self.vehicle - self.empty * numpy.minimum(self.dead, dear)
        self.gains: Whole = numpy.where(self.may_follow, numpy.maximum(gains, 0), 0)

    def gain(self, i: int, j: int) -> int:
        """What a link gains, in millionths."""
        return self.vehicle - self.empty * int(self.dead[i, j])

    def cost(self, successors: Successors) -> int:
        """What a schedule costs, in millionths."""
        links = [(i, j) for i, j in enumerate(successors) if j is not None]
        return self.vehicle * len(self.trips) - sum(self.gain(i, j) for i, j in links)


def vehicle_problem(data: Dataset) -> VehicleProblem:
    """The trips of a dataset."""
    ways: dict[int, list[tuple[int, int]]] = {}
    for edge in data[EDGES]:
        ways.setdefault(edge.left_stop, []).append((edge.right_stop, edge.lower_bound))
        ways.setdefault(edge.right_stop, []).append((edge.left_stop, edge.lower_bound))
    trips = data[TRIPS].rows
    reach = {stop: least_minutes(ways, stop) for stop in {trip.end_stop for trip in trips}}
    keys = data.settings
    costs = (keys.vs_turn_over_time, keys.vs_vehicle_costs, keys.vs_empty_costs)
    return VehicleProblem(trips, reach, costs)


def least_minutes(ways: dict[int, list[tuple[int, int]]], start: int) -> dict[int, int]:
    """The least minutes from a stop to each other one (Dijkstra, 1959)."""
    found: dict[int, int] = {}
    heap = [(0, start)]
    while heap:
        minutes, stop = heapq.heappop(heap)
        if stop not in found:
            found[stop] = minutes
            for other, drive in ways.get(stop, ()):
                if other not in found:
                    heapq.heappush(heap, (minutes + drive, other))
    return found


def schedule_rows(problem: VehicleProblem, successors: Successors) -> Iterator[ScheduleRow]:
    """The rows of a schedule, with an empty drive between each two trips of a vehicle."""
    later = set(successors)
    firsts = (trip for trip in range(len(successors)) if trip not in later)
    for vehicle, first in enumerate(firsts, 1):
        number, i = 1, first
        while True:
            trip, j = problem.trips[i], successors[i]
            yield ScheduleRow(vehicle, vehicle, number, "TRIP", *trip)
            if j is None:
                break
            there = trip.end_time + int(problem.dead[i, j])
            ends = (*trip[4:8], *problem.trips[j][:3], there, 0)
            yield ScheduleRow(vehicle, vehicle, number + 1, "EMPTY", *ends)
            number, i = number + 2, j


def potential_rows(u: list[int], v: list[int]) -> list[Potential]:
    """The rows of the potentials that prove a schedule cheapest."""
    return [Potential(trip, *both) for trip, both in enumerate(zip(u, v), 1)]
