"""The best ways over a day, from every event to some stops.

A day is a network of events; a way goes from event to event by activities that can be used, as
`lintim journey` has it. The search goes backward over the events, for many stops at once: the
connection scan of J. Dibbelt, T. Pajor, B. Strasser, D. Wagner, Connection scan algorithm, 2018,
here over events. What is best is the first arrival, then the fewest changes, then the latest
departure; with a penalty each change counts as so many minutes of arrival.
"""

from typing import NamedTuple

import numpy as np
import numpy.typing as npt

from ..dataset import Dataset
from ..faults import Refused
from ..formats import DAY_ACTIVITIES, DAY_EVENTS, DISPOSITION

Wholes = npt.NDArray[np.int64]
Places = npt.NDArray[np.int32]
SHIFT = 20  # bits for changes below the minutes of a label
LATEST = 10**11  # minutes; later times are refused
NEVER = 2**61  # the label where there is no way
STAYS = ("drive", "wait")  # kinds of activities within a trip


class Day:
    """The events and activities of a day, with planned times; events and activities by place."""

    def __init__(self, data: Dataset) -> None:
        events, activities = data[DAY_EVENTS], data[DAY_ACTIVITIES]
        self.planned = np.array(events.column("time"), np.int64)
        self.stops = np.array(events.column("stop_id"), np.int64)
        self.is_arrival = np.array([it.type == "arrival" for it in events], bool)
        self.tails = np.array([it.from_event - 1 for it in activities], np.int64)
        self.heads = np.array([it.to_event - 1 for it in activities], np.int64)
        self.lower = np.array([it.lower_bound for it in activities], np.int64)
        self.leaves = np.array([it.type not in STAYS for it in activities], bool)
        self.is_drive = np.array([it.type == "drive" for it in activities], bool)
        places = np.arange(len(self.planned))
        self.order = np.lexsort((places, ~self.is_arrival, self.planned))

    @property
    def size(self) -> int:
        """How many events there are."""
        return len(self.planned)


def disposed_times(data: Dataset) -> Wholes:
    """The times of the disposition, one for each event."""
    times = np.array(data[DISPOSITION].column("time"), np.int64)
    if times.size and times.max() > LATEST:
        raise Refused(f"{DISPOSITION.name} has times beyond {LATEST} minutes")
    return times


class Net:
    """A day at some times: the activities that can be used, by the event at which they begin."""

    def __init__(self, day: Day, times: Wholes, penalty: int = 0) -> None:
        self.day, self.times, self.penalty = day, times, penalty
        self.is_usable = times[day.tails] + day.lower <= times[day.heads]
        ids = np.flatnonzero(self.is_usable)
        self.ids = ids[np.argsort(day.tails[ids], kind="stable")]
        self.first = np.searchsorted(day.tails[self.ids], np.arange(day.size + 1))
        self.heads = day.heads[self.ids]
        self.change = (penalty << SHIFT) + 1
        self.costs = np.where(day.leaves[self.ids], self.change, 0).astype(np.int64)
        self.starts: dict[int, Wholes] = {}
        departures = np.flatnonzero(~day.is_arrival)
        by_time = departures[np.lexsort((times[departures], day.stops[departures]))]
        stops, begins = np.unique(day.stops[by_time], return_index=True)
        for stop, events in zip(stops, np.split(by_time, begins[1:])):
            self.starts[int(stop)] = events

    def minutes(self, labels: Wholes) -> Wholes:
        """The arrival that labels stand for."""
        found: Wholes = (labels >> SHIFT) - self.penalty * self.changes(labels)
        return found

    def changes(self, labels: Wholes) -> Wholes:
        """The changes that labels stand for."""
        found: Wholes = labels & ((1 << SHIFT) - 1)
        return found


class Ways(NamedTuple):
    """The best ways to some stops: of each event the label, a column for each stop, and the
    activity by which the way goes on, -1 where it ends or where there is none."""

    net: Net
    stops: list[int]
    labels: Wholes
    next: Places


def ways_to(net: Net, stops: list[int]) -> Ways:
    """The best ways from every event to these stops."""
    day, count = net.day, len(stops)
    column = {stop: place for place, stop in enumerate(stops)}
    labels = np.full((day.size, count), NEVER, np.int64)
    following = np.full((day.size, count), -1, np.int32)
    columns, first, heads, costs = np.arange(count), net.first.tolist(), net.heads, net.costs
    ends = [
        column.get(stop, -1) if is_arrival else -1
        for stop, is_arrival in zip(day.stops.tolist(), day.is_arrival.tolist())
    ]
    for event in day.order[::-1].tolist():
        begin, end = first[event], first[event + 1]
        if begin < end:
            others = labels[heads[begin:end]] + costs[begin:end, None]
            best = others.argmin(axis=0)
            labels[event] = np.minimum(others[best, columns], NEVER)
            following[event] = net.ids[begin + best]
        if ends[event] >= 0:
            labels[event, ends[event]] = int(net.times[event]) << SHIFT
            following[event, ends[event]] = -1
    following[labels >= NEVER] = -1
    return Ways(net, stops, labels, following)


def best_starts(ways: Ways, stop: int) -> tuple[Wholes, Wholes, Wholes]:
    """The departures of a stop by time: their times, and of each and each goal the best departure
    not before it, -1 where there is none, with its label."""
    events = ways.net.starts.get(stop, np.empty(0, np.int64))
    count = len(events)
    labels = ways.labels[events]
    best = np.empty_like(labels)
    if count:
        lowest = np.minimum.accumulate(labels[::-1], axis=0)[::-1]
        is_own = np.ones(labels.shape, bool)
        is_own[:-1] = labels[:-1] < lowest[1:]
        places = np.where(is_own, np.arange(count)[:, None], count)
        places = np.minimum.accumulate(places[::-1], axis=0)[::-1]
        best = np.where(lowest < NEVER, events[np.minimum(places, count - 1)], -1)
        labels = lowest
    return ways.net.times[events], best, labels


def asked(ways: Ways, start: int, column: int, begin: int) -> list[int]:
    """The events of the best journey from a stop to the goal of a column, by place; none where
    there is no journey."""
    times, best, _ = best_starts(ways, start)
    place = int(np.searchsorted(times, begin))
    if place == len(times) or best[place, column] < 0:
        return []
    events = [int(best[place, column])]
    while (activity := int(ways.next[events[-1], column])) >= 0:
        events.append(int(ways.net.day.heads[activity]))
    return events
