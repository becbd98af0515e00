"""The day of a dataset, trip by trip, as a feed tells it."""

from collections import Counter
from collections.abc import Iterator
from typing import NamedTuple

from .. import formats
from ..dataset import Dataset
from ..faults import Refused
from ..formats import DayEvent, Trip


class Call(NamedTuple):
    """A stop of a trip: when the trip arrives and departs, in minutes of the day, how far it has
    come by then, in millionths of a unit of length, and for which time it calls there, from 1."""

    stop: int
    arrival: int
    departure: int
    walked: int
    visit: int


class DayTrip(NamedTuple):
    """A trip of the day, by its number from 1; the vehicle is 0 where no schedule is there."""

    number: int
    line: int
    is_forward: bool
    vehicle: int
    calls: list[Call]


class Side(NamedTuple):
    """One end of a change: a trip, and which of its calls at the stop it is."""

    trip: int
    visit: int


class Change(NamedTuple):
    """A change of the day: from a trip to a trip at a stop, in so many minutes at least."""

    stop: int
    before: Side
    after: Side
    least: int


class Day(NamedTuple):
    """The trips of a day in order of their numbers, and the changes between them."""

    trips: list[DayTrip]
    changes: list[Change]


def read_day(data: Dataset, is_disposed: bool, has_vehicles: bool) -> Day:
    """The day of a dataset, by its planned times or by those of its disposition."""
    events = {event.event_id: event for event in data[formats.DAY_EVENTS]}
    times = {event.event_id: event.time for event in events.values()}
    if is_disposed:
        times.update((row.event_id, row.time) for row in data[formats.DISPOSITION])
    forward = {it.event_id: it.direction == ">" for it in data[formats.PERIODIC_EVENTS]}
    lengths = _line_lengths(data)
    vehicles = _vehicles(data) if has_vehicles else {}
    trips: list[DayTrip] = []
    side_of: dict[int, Side] = {}
    for number, trip in enumerate(data[formats.TRIPS], 1):
        is_forward = forward.get(trip.periodic_start_id)
        if is_forward is None:
            raise Refused(f"{formats.TRIPS.name} row {number + 1}: unknown periodic event")
        steps = lengths.get(trip.line, [])
        calls = list(_calls(trip, events, times, steps if is_forward else steps[::-1]))
        vehicle = vehicles.get(trip.start_id, 0)
        trips.append(DayTrip(number, trip.line, is_forward, vehicle, calls))
        for event in range(trip.start_id, trip.end_id + 1):
            side_of[event] = Side(number, calls[(event - trip.start_id + 1) // 2].visit)
    return Day(trips, _changes(data, events, side_of))


def _line_lengths(data: Dataset) -> dict[int, list[int]]:
    """The lengths of the edges of each line, in the order of its edges."""
    length = {edge.edge_id: edge.length for edge in data[formats.EDGES]}
    lines: dict[int, list[int]] = {}
    for row in data[formats.CONCEPT]:
        if row.edge_id not in length:
            raise Refused(f"{formats.CONCEPT.name}: unknown edge {row.edge_id}")
        lines.setdefault(row.line_id, []).append(length[row.edge_id])
    return lines


def _vehicles(data: Dataset) -> dict[int, int]:
    """The vehicle of each trip, by the event with which the trip starts."""
    return {row.start_id: row.vehicle for row in data[formats.SCHEDULE] if row.type == "TRIP"}


def _calls(
    trip: Trip, events: dict[int, DayEvent], times: dict[int, int], steps: list[int]
) -> Iterator[Call]:
    """The calls of a trip; its events are a departure, and then arrivals and departures in turn."""
    if any(event not in events for event in range(trip.start_id, trip.end_id + 1)):
        raise Refused(f"{formats.TRIPS.name}: a trip of line {trip.line} has unknown events")
    if trip.end_id - trip.start_id + 1 != 2 * len(steps) or not steps:
        raise Refused(f"{formats.TRIPS.name}: a trip does not go over the edges of {trip.line}")
    start, walked = trip.start_id, 0
    visits = Counter([events[start].stop_id])
    yield Call(events[start].stop_id, times[start], times[start], 0, 1)
    for place, step in enumerate(steps):
        arrival = start + 2 * place + 1
        departure = arrival + 1 if place + 1 < len(steps) else arrival
        walked += step
        stop = events[arrival].stop_id
        visits[stop] += 1
        yield Call(stop, times[arrival], times[departure], walked, visits[stop])


def _changes(data: Dataset, events: dict[int, DayEvent], side_of: dict[int, Side]) -> list[Change]:
    """The changes of the day."""
    found = []
    for it in data[formats.DAY_ACTIVITIES]:
        if it.type == "change":
            if it.from_event not in side_of or it.to_event not in side_of:
                raise Refused(f"{formats.DAY_ACTIVITIES.name}: unknown event in {it.activity_id}")
            sides = side_of[it.from_event], side_of[it.to_event]
            found.append(Change(events[it.from_event].stop_id, *sides, it.lower_bound))
    return sorted(found)
