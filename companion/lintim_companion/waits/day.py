"""A day with delays: when its events take place where some changes are dropped, and what that costs.

For a set of kept changes each event takes place at its least time: not before its planned time and
its delay, nor before what a drive, a wait, a turn of its vehicle or a kept change asks. A decision
costs the minutes by which all arrivals are late, and a penalty for each change that is dropped.
"""

from collections.abc import Set
from typing import NamedTuple

from ..dataset import Dataset
from ..formats import ACTIVITY_DELAYS, DAY_ACTIVITIES, DAY_EVENTS, EVENT_DELAYS, SCHEDULE


class Link(NamedTuple):
    """The second event is not before the first one and so many minutes, of which some are a delay;
    events count from 0. The id is that of a change, and 0 for what always holds."""

    first: int
    second: int
    minutes: int
    id: int = 0
    delay: int = 0


class DayEvent(NamedTuple):
    """An event: when it is planned, its delay, and whether it is an arrival."""

    planned: int
    delay: int
    is_arrival: bool


class Day:
    """Events, and links between them, which go forward by planned times, arrivals first."""

    def __init__(self, events: list[DayEvent], links: list[Link]) -> None:
        self.events = events
        self.changes = [link for link in links if link.id]
        self.ids = {link.id for link in self.changes}
        self.ways: list[list[Link]] = [[] for _ in events]
        for link in links:
            self.ways[link.first].append(link)

        def place(at: int) -> tuple[int, bool, int]:
            return events[at].planned, not events[at].is_arrival, at

        self.order = sorted(range(len(events)), key=place)

    def least(self, dropped: Set[int]) -> list[int]:
        """The least times where the changes with these ids are dropped."""
        times = [event.planned + event.delay for event in self.events]
        for event in self.order:
            for link in self.ways[event]:
                then = times[event] + link.minutes
                if then > times[link.second] and link.id not in dropped:
                    times[link.second] = then
        return times

    def delay(self, times: list[int]) -> int:
        """The minutes by which all arrivals are later than planned."""
        both = zip(times, self.events)
        return sum(time - event.planned for time, event in both if event.is_arrival)


def read_day(data: Dataset) -> Day:
    """The day of a dataset."""
    late = dict(data.get(EVENT_DELAYS).rows)
    longer = dict(data.get(ACTIVITY_DELAYS).rows)
    events = [
        DayEvent(event.time, late.get(event.event_id, 0), event.type == "arrival")
        for event in data[DAY_EVENTS]
    ]
    links = []
    for by in data[DAY_ACTIVITIES]:
        delay = longer.get(by.activity_id, 0)
        id = by.activity_id if by.type == "change" else 0
        minutes = by.lower_bound + delay
        links.append(Link(by.from_event - 1, by.to_event - 1, minutes, id, delay))
    for row in data[SCHEDULE]:
        if row.type == "EMPTY":
            minutes = row.end_time - row.start_time + data.settings.vs_turn_over_time
            links.append(Link(row.start_id - 1, row.end_id - 1, minutes))
    return Day(events, links)
