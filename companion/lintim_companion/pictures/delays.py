"""Delays: where they come from, and what they reach, by the reasons in the certificate."""

from collections import defaultdict
from typing import NamedTuple

from ..clocks import clock
from ..formats import ACTIVITY_DELAYS, DAY_ACTIVITIES, DAY_EVENTS, DISPOSITION, EVENT_DELAYS
from ..formats import REASONS, SCHEDULE, STOPS, TRIPS, DayActivity, Reason
from . import style
from .plan import Index, Plan
from .scene import Axis, Facts, Layer, Picture, Section, Shape, row_axis
from .space_time import time_axis

WAYS = {"drive or wait": "solid", "change that waits": "dash", "turn of the vehicle": "dot"}
MANY = 300  # late events, above which no number stands beside them
Source = tuple[str, int]  # the kind, event or activity, and the id of a row of delays


class Late(NamedTuple):
    """A late event: its reason, and the event before it, 0 where there is none."""

    event: int
    reason: Reason
    before: int


def delay_section(plan: Plan) -> Section:
    """A row for each trip that a delay reaches."""
    section = Section(
        "delays",
        "Delays",
        "Each row is a trip that a delay reaches, over the times at which its events really take"
        " place; the number is by how many minutes an event is late. A star is where a delay comes"
        " from. Strokes lead from each late event to those that are late by it: along a trip, by a"
        " change that waits, or by the turn of a vehicle.",
    )
    files = STOPS, DAY_EVENTS, DAY_ACTIVITIES, TRIPS, SCHEDULE, DISPOSITION, REASONS
    section.left_out = plan.missing(*files)
    if section.left_out:
        return section
    lates = late_events(plan)
    if not lates and not sources(plan):
        section.left_out = "nothing is late: there are no delays, and each event is as planned"
        return section
    section.pictures = [delay_picture(plan, lates)]
    section.head = ("a delay of", "comes from", "reaches events", "of trips", "minutes at arrivals")
    section.table = source_table(plan, lates)
    return section


def late_events(plan: Plan) -> dict[int, Late]:
    """The late events of the day, by id."""
    ways = activities(plan)
    turns = {row.end_id: row.start_id for row in plan.data[SCHEDULE] if row.type == "EMPTY"}
    before_turn = Index("empty ride to event", SCHEDULE, turns)
    found = {}
    for reason in plan.data[REASONS]:
        event = reason.event_id
        if plan.disposed[event] != plan.events[event].time:
            before = 0
            if reason.reason == "activity":
                before = ways[reason.activity_id].from_event
            elif reason.reason == "turn":
                before = before_turn[event]
            found[event] = Late(event, reason, before)
    return found


def activities(plan: Plan) -> Index[DayActivity]:
    """The activities of the day by id."""
    rows = {by.activity_id: by for by in plan.data[DAY_ACTIVITIES]}
    return Index("activity", DAY_ACTIVITIES, rows)


def sources(plan: Plan) -> list[tuple[Source, int, int]]:
    """The delays that come from outside: their row, their minutes, and the event that they reach
    first."""
    ways = activities(plan)
    found = [
        (("event", row.event_id), row.delay, row.event_id) for row in plan.data.get(EVENT_DELAYS)
    ]
    for row in plan.data.get(ACTIVITY_DELAYS):
        found.append((("activity", row.activity_id), row.delay, ways[row.activity_id].to_event))
    return found


def source_of(event: int, lates: dict[int, Late], longer: set[int]) -> Source:
    """The row of delays that the reasons of a late event lead back to: the first one on the way."""
    seen = set()
    while event in lates and event not in seen:
        seen.add(event)
        late = lates[event]
        if late.reason.reason == "activity" and late.reason.activity_id in longer:
            return "activity", late.reason.activity_id
        if not late.before:
            break
        event = late.before
    return "event", event


def source_table(plan: Plan, lates: dict[int, Late]) -> list[tuple[str, ...]]:
    """What each delay reaches."""
    longer = {row.activity_id for row in plan.data.get(ACTIVITY_DELAYS) if row.delay}
    reached: dict[Source, list[int]] = defaultdict(list)
    for event in lates:
        reached[source_of(event, lates, longer)].append(event)
    found: list[tuple[str, ...]] = []
    for source, minutes, event in sources(plan):
        ids = reached.get(source, [])
        at_arrivals = sum(
            plan.disposed[id] - plan.events[id].time
            for id in ids
            if plan.events[id].type == "arrival"
        )
        trips = {plan.trip_of[id].id for id in ids}
        at = f"{source[0]} {source[1]}, at {plan.names[plan.events[event].stop_id]}"
        counts = str(len(ids)), str(len(trips)), str(at_arrivals)
        found.append((f"{minutes} minutes", at, *counts))
    return found


def delay_picture(plan: Plan, lates: dict[int, Late]) -> Picture:
    """A row for each trip with a late event, or from which one is late."""
    shown = {id for id in lates if plan.is_drawn(plan.trip_of[id])}
    of_sources = [it for it in sources(plan) if plan.is_drawn(plan.trip_of[it[2]])]
    events = shown | {lates[id].before for id in shown if lates[id].before}
    events |= {event for _, _, event in of_sources}
    first: dict[int, int] = {}
    for event in events:
        trip, time = plan.trip_of[event].id, plan.disposed[event]
        first[trip] = min(first.get(trip, time), time)
    rows = {trip: place for place, trip in enumerate(sorted(first, key=lambda it: (first[it], it)))}
    layers = way_layers(plan, [lates[id] for id in sorted(shown)], rows)
    layers += late_layers(plan, [lates[id] for id in sorted(shown)], rows)
    layers.append(source_layer(plan, of_sources, rows))
    lines = {trip.id: trip.line for trip in plan.all_trips}
    y, height = row_axis([f"trip {id}, {plan.called(lines[id])}" for id in rows])
    layers = [layer for layer in layers if layer.shapes]
    title = "Late events and why they are late"
    return Picture("delays", title, time_axis(plan), y, layers, height)


def way_layers(plan: Plan, lates: list[Late], rows: dict[int, int]) -> list[Layer]:
    """Strokes from each event to those that are late by it."""
    kinds = activities(plan)
    layers: dict[tuple[str, tuple[int, ...]], Layer] = {}
    for late in lates:
        if not late.before:
            continue
        is_turn = late.reason.reason == "turn"
        is_change = not is_turn and kinds[late.reason.activity_id].type == "change"
        way = [*WAYS][2 if is_turn else 1 if is_change else 0]
        ends = [plan.trip_of[event] for event in (late.before, late.event)]
        lines = tuple(sorted({trip.line for trip in ends}))
        facts = ("event", "activity", "from event")
        fresh = Layer(way, "stroke", facts, style.QUIET, lines, width=2, is_told=False)
        fresh.dash = WAYS[way]
        layer = layers.setdefault((way, lines), fresh)
        x: list[float] = [plan.disposed[event] for event in (late.before, late.event)]
        y: list[float] = [rows[trip.id] for trip in ends]
        told = (late.event, late.reason.activity_id, late.before)
        layer.shapes.append(Shape(f"reason-{late.event}", x, y, [told, told]))
    named: set[str] = set()
    for layer in layers.values():
        layer.in_legend = layer.name not in named
        named.add(layer.name)
    return list(layers.values())


def late_layers(plan: Plan, lates: list[Late], rows: dict[int, int]) -> list[Layer]:
    """The late events, in the colours of their lines."""
    facts = (
        "event",
        "trip",
        "line",
        "kind",
        "stop",
        "planned",
        "minutes late",
        "reason",
    )
    layers: dict[int, Layer] = {}
    for late in lates:
        event, trip = plan.events[late.event], plan.trip_of[late.event]
        name, colour = plan.called(trip.line), plan.colour(trip.line)
        fresh = Layer(name, "mark", facts, colour, (trip.line,))
        layer = layers.setdefault(trip.line, fresh)
        layer.width = 9
        time = plan.disposed[late.event]
        why = late.reason.reason
        if why == "activity":
            why = f"activity {late.reason.activity_id} from event {late.before}"
        elif why == "turn":
            why = f"turn after event {late.before}"
        stop = plan.names[event.stop_id]
        times = (clock(event.time), time - event.time)
        told: Facts = (late.event, trip.id, trip.line, event.type, stop, *times, why)
        name, y = f"late-{late.event}", float(rows[trip.id])
        label = f"+{time - event.time}" if len(lates) <= MANY else ""
        layer.shapes.append(Shape(name, [time], [y], [told], label))
    return [layers[line] for line in sorted(layers)]


def source_layer(
    plan: Plan, of_sources: list[tuple[Source, int, int]], rows: dict[int, int]
) -> Layer:
    """Where delays come from."""
    facts = ("id", "row of delays for an", "minutes", "event", "stop")
    layer = Layer("delays from outside", "mark", facts, style.ALARM, width=15, symbol="star")
    for (kind, id), minutes, event in of_sources:
        stop = plan.names[plan.events[event].stop_id]
        x, y = float(plan.disposed[event]), float(rows[plan.trip_of[event].id])
        told = (id, kind, minutes, event, stop)
        layer.shapes.append(Shape(f"source-{kind}-{id}", [x], [y], [told]))
    return layer
