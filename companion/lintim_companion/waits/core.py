"""The part of a day that decisions can change.

Where no change is kept events are as early as can be, and where all are kept as late as can be.
Only events that these two times part can move, and only changes that some decision can break are
worth a thought; all others are kept at no cost. On a usual day few of each are left.
"""

import heapq
from collections.abc import Set
from typing import NamedTuple

from .day import Day


class Way(NamedTuple):
    """From an event of the core on to another one: its least minutes, and the change that has to
    be kept for it, by its place, or -1 where it always holds."""

    second: int
    minutes: int
    change: int


class CoreChange(NamedTuple):
    """A change that some decision can break. Where the event at which it begins cannot move, there
    is none (-1), and the minutes are a time of the day. Where no change is kept, and its own delay
    is not counted, its departure would wait so long beyond its plan."""

    id: int
    first: int
    second: int
    minutes: int
    wait: int


class Core:
    """Events that can move, by their places in the day, in an order in which all ways go forward, with their earliest and
    latest times; ways between them; and changes that can be broken."""

    def __init__(self, day: Day) -> None:
        least, most = day.least(day.ids), day.least(set())
        self.delay = day.delay(least)
        moved = [event for event in day.order if most[event] > least[event]]
        place = {event: at for at, event in enumerate(moved)}
        self.events = moved
        self.least = [least[event] for event in moved]
        self.most = [most[event] for event in moved]
        self.is_arrival = [day.events[event].is_arrival for event in moved]
        self.ways: list[list[Way]] = [[] for _ in moved]
        self.changes: list[CoreChange] = []
        for event in moved:
            for link in day.ways[event]:
                if link.id == 0 and link.second in place:
                    self.ways[place[event]].append(Way(place[link.second], link.minutes, -1))
        for link in day.changes:
            asks = least[link.first] + link.minutes
            if most[link.first] + link.minutes > least[link.second]:
                first = place.get(link.first, -1)
                minutes = link.minutes if first >= 0 else asks
                wait = asks - link.delay - day.events[link.second].planned
                self._take(CoreChange(link.id, first, place[link.second], minutes, wait))
        self.around: list[list[int]] = [[] for _ in moved]
        for at, change in enumerate(self.changes):
            for event in {change.first, change.second} - {-1}:
                self.around[event].append(at)

    def _take(self, change: CoreChange) -> None:
        if change.first >= 0:
            way = Way(change.second, change.minutes, len(self.changes))
            self.ways[change.first].append(way)
        self.changes.append(change)

    def times(self, dropped: Set[int]) -> list[int]:
        """The least times where the changes with these ids are dropped."""
        times = self.least[:]
        for change in self.changes:
            if change.first < 0 and change.id not in dropped:
                times[change.second] = max(times[change.second], change.minutes)
        for at, ways in enumerate(self.ways):
            for second, minutes, by in ways:
                then = times[at] + minutes
                if then > times[second] and (by < 0 or self.changes[by].id not in dropped):
                    times[second] = then
        return times

    def late(self, times: list[int]) -> int:
        """The minutes by which all arrivals of the day are later than planned."""
        both = zip(times, self.least, self.is_arrival)
        return self.delay + sum(time - least for time, least, is_arrival in both if is_arrival)

    def asks(self, change: CoreChange, times: list[int]) -> int:
        """The time before which the departure of a change is not, where it is kept."""
        return change.minutes + (times[change.first] if change.first >= 0 else 0)

    def is_broken(self, change: CoreChange, times: list[int]) -> bool:
        """Whether times do not keep a change."""
        return self.asks(change, times) > times[change.second]

    def raised(self, times: list[int], kept: list[bool], change: CoreChange, enough: int) -> "Rise":
        """What grows where a change is kept; it stops early where arrivals are late enough."""
        event = change.second
        later = {event: self.asks(change, times)}
        seen, heap, grown = {event}, [event], 0
        while heap and grown < enough:
            at = heapq.heappop(heap)
            now = later[at]
            if self.is_arrival[at]:
                grown += now - times[at]
            for second, minutes, by in self.ways[at]:
                if by < 0 or kept[by]:
                    seen.add(second)
                    if now + minutes > later.get(second, times[second]):
                        if second not in later:
                            heapq.heappush(heap, second)
                        later[second] = now + minutes
        return Rise(later, grown, seen)


class Rise(NamedTuple):
    """What grows where a change is kept: the times of events, by how many minutes arrivals are
    later then, and the events that were looked at."""

    later: dict[int, int]
    grown: int
    seen: set[int]
