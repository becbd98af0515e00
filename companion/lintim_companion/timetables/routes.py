"""Customers in a periodic timetable: which routes they take at each minute of departure, how many
minutes these take, and how many customers there are on each activity.

From a departure on a route takes the tensions of its activities, whatever the minute is, so that
routes are least paths over drives, waits and changes (E. W. Dijkstra, A note on two problems in
connexion with graphs, 1959). Who wants to leave at a minute takes the departure by which he is
there first."""

from dataclasses import dataclass

import numpy
from scipy.sparse import csr_matrix
from scipy.sparse.csgraph import dijkstra

from ..dataset import Dataset
from ..formats import DEMAND
from .network import PeriodicNetwork, Real, Whole, whole
from .rounds import Rounds

LITTLE = 1e-6  # minutes of an activity beyond its tension: of equal routes the one with fewer


@dataclass(frozen=True)
class Demand:
    """Customers from stops to other stops."""

    origin: Whole
    destination: Whole
    customers: Real


@dataclass(frozen=True)
class Routing:
    """What routes come to: means over all customers and minutes of departure, how many customers
    have a route, and the customers on each activity."""

    minutes: float
    change_minutes: float
    changes: float
    routed: float
    weights: Real


def demand_of(data: Dataset) -> Demand:
    """The demand of a dataset, without rows that nobody travels."""
    rows = [it for it in data.get(DEMAND) if it.customers > 0 and it.from_stop != it.to_stop]
    customers = numpy.array([it.customers / 10**6 for it in rows], dtype=float)
    return Demand(
        whole([it.from_stop for it in rows]), whole([it.to_stop for it in rows]), customers
    )


class Router:
    """Routes over one network, for one demand, under any times. A change counts for some minutes
    more than it takes, where a penalty says so; told minutes are without it."""

    def __init__(self, network: PeriodicNetwork, demand: Demand, penalty: int = 0) -> None:
        self.network, self.demand, self.penalty = network, demand, penalty
        kinds = numpy.array(network.kind, dtype=str)
        self.used = numpy.flatnonzero(numpy.isin(kinds, ["drive", "wait", "change"]))
        self.is_change = kinds == "change"
        self.goals = numpy.unique(demand.destination)
        arrivals = [
            numpy.flatnonzero(network.is_arrival & (network.stop == it)) for it in self.goals
        ]
        self.ends = numpy.concatenate([*arrivals, whole([])])
        self.end_goal = numpy.repeat(
            numpy.arange(len(self.goals)) + network.events, [len(it) for it in arrivals]
        )
        self.departures = {
            int(stop): numpy.flatnonzero(~network.is_arrival & (network.stop == stop))
            for stop in numpy.unique(demand.origin)
        }
        self.rounds = Rounds(network, self.goals)
        self.goal_of_row = numpy.searchsorted(self.goals, demand.destination)
        self._departures_of_rows()
        self.goal_place = {int(stop): place for place, stop in enumerate(self.goals)}
        pairs = zip(network.first[self.used], network.second[self.used])
        self.activity_of = {(int(i), int(j)): int(place) for (i, j), place in zip(pairs, self.used)}

    def _departures_of_rows(self) -> None:
        """The departures at the origin of each row of demand, filled up to equal numbers by some
        that are infinitely far."""
        found = [self.departures[int(stop)] for stop in self.demand.origin]
        most = max([1, *map(len, found)])
        self.leave = numpy.zeros((len(found), most), dtype=numpy.int64)
        self.no_departure = numpy.full((len(found), most), numpy.inf)
        for row, events in enumerate(found):
            self.leave[row, : len(events)] = events
            self.no_departure[row, : len(events)] = 0.0

    def _distances(self, times: Whole) -> tuple[Real, Whole]:
        """From each event to each stop of arrival: least minutes, and the event that follows."""
        network, used = self.network, self.used
        minutes = network.tension(times)[used] + self.penalty * self.is_change[used] + LITTLE
        size = network.events + len(self.goals)
        values = numpy.concatenate([minutes, numpy.full(len(self.ends), LITTLE)])
        rows = numpy.concatenate([network.second[used], self.end_goal])
        columns = numpy.concatenate([network.first[used], self.ends])
        back = csr_matrix((values, (rows, columns)), shape=(size, size))
        goals = numpy.arange(len(self.goals)) + network.events
        far, after = dijkstra(back, indices=goals, return_predecessors=True)
        return far, after

    def mean(self, times: Whole) -> float:
        """The mean minutes, with penalties, by which times are compared."""
        if not len(self.goals):
            return 0.0
        period, customers = self.network.period, self.demand.customers
        far = self.rounds.minutes(times, self.penalty)
        waits = (times[self.leave][:, :, None] - numpy.arange(period)) % period
        reach = far[self.leave, self.goal_of_row[:, None]] + self.no_departure
        least = (waits + reach[:, :, None]).min(axis=1).mean(axis=1)
        there = numpy.isfinite(least)
        routed = float(customers[there].sum())
        return float(customers[there] @ least[there]) / routed if routed else 0.0

    def route(self, times: Whole) -> Routing:
        """Routes of all customers at all minutes of departure."""
        network, demand = self.network, self.demand
        weights = numpy.zeros(len(network.lower))
        waited = routed = 0.0
        if len(self.goals):
            far, after = self._distances(times)
            moments = numpy.arange(network.period)
            flows: dict[int, dict[int, float]] = {}
            for origin, goal, customers in zip(demand.origin, demand.destination, demand.customers):
                leave, place = self.departures[int(origin)], self.goal_place[int(goal)]
                if not len(leave) or not numpy.isfinite(far[place, leave]).any():
                    continue
                waits = (times[leave][:, None] - moments) % network.period
                chosen = (waits + far[place, leave][:, None]).argmin(axis=0)
                waited += customers * waits[chosen, moments].mean()
                routed += customers
                share, flow = customers / network.period, flows.setdefault(place, {})
                for which, count in zip(*numpy.unique(chosen, return_counts=True)):
                    event = int(leave[which])
                    flow[event] = flow.get(event, 0.0) + share * int(count)
            for place, flow in flows.items():
                self._push(flow, after[place], far[place], weights)
        tension = network.tension(times)
        total = waited + float(weights @ tension)
        per = routed or 1.0
        changing = float(weights[self.is_change] @ tension[self.is_change])
        changes = float(weights[self.is_change].sum())
        return Routing(total / per, changing / per, changes / per, routed, weights)

    def _push(self, flow: dict[int, float], after: Whole, far: Real, weights: Real) -> None:
        """Sends customers along the least paths to one stop, the farthest event first."""
        reached = {event: customers for event, customers in flow.items()}
        waiting = sorted(reached, key=lambda event: float(far[event]))
        while waiting:
            event = waiting.pop()
            follows = int(after[event])
            if follows >= self.network.events:
                continue
            customers = reached[event]
            weights[self.activity_of[event, follows]] += customers
            if follows in reached:
                reached[follows] += customers
            else:
                reached[follows] = customers
                _insert(waiting, follows, far)


def _insert(waiting: list[int], event: int, far: Real) -> None:
    """Puts an event where its distance belongs, the farthest last."""
    low, high = 0, len(waiting)
    while low < high:
        middle = (low + high) // 2
        if far[waiting[middle]] < far[event]:
            low = middle + 1
        else:
            high = middle
    waiting.insert(low, event)
