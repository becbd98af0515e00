"""The periodic timetable as the circle of a stop: who arrives and leaves when, and who can change."""

import math
from collections import defaultdict
from typing import NamedTuple

from ..formats import PERIODIC_ACTIVITIES, PERIODIC_EVENTS, STOPS, TIMETABLE
from ..formats import PeriodicActivity, PeriodicEvent
from . import style
from .plan import Index, Plan
from .scene import Axis, Layer, Picture, Section, Shape

RING, STEP = 1.0, 0.085  # where the first mark of a minute stands, and how far each further one
SLACKS = (
    (3, "change, slack 0 to 3 minutes", style.ALARM, "solid"),
    (10, "change, slack 4 to 10", style.QUIET, "solid"),
    (10**9, "change, slack more than 10", style.QUIET, "dot"),
)


class Timed(NamedTuple):
    """An event of the period, its minute, and its place from the ring outwards."""

    event: PeriodicEvent
    time: int
    rank: int


def circle_section(plan: Plan) -> Section:
    """A circle for each stop."""
    section = Section(
        "period",
        "Periodic timetable",
        "The circle of a stop is one period, with minute 0 above, and goes as a clock does. A disc is"
        " an arrival, a triangle a departure. A chord is a change from an arrival to a departure;"
        " the mark on it tells its slack, the minutes beyond its least ones.",
    )
    section.left_out = plan.missing(STOPS, PERIODIC_EVENTS, TIMETABLE)
    if section.left_out:
        return section
    if why := plan.missing(PERIODIC_ACTIVITIES):
        section.about += f" {why}, so there are no chords."
    times = {row.event_id: row.time for row in plan.data[TIMETABLE]}
    index = Index("event", TIMETABLE, times)
    at: dict[int, list[PeriodicEvent]] = defaultdict(list)
    for event in plan.data[PERIODIC_EVENTS]:
        if plan.choice.has_line(event.line_id):
            at[event.stop_id].append(event)
    stop_of = {event.event_id: event.stop_id for event in plan.data[PERIODIC_EVENTS]}
    changes: dict[int, list[PeriodicActivity]] = defaultdict(list)
    for by in plan.data.get(PERIODIC_ACTIVITIES):
        if by.type == "change":
            changes[stop_of.get(by.from_event, 0)].append(by)
    for stop in sorted(at):
        timed = ranked(at[stop], index)
        section.pictures.append(stop_picture(plan, stop, timed, changes[stop]))
    return section


def ranked(events: list[PeriodicEvent], times: Index[int]) -> dict[int, Timed]:
    """The events of a stop with their minutes; those of one minute stand outside one another."""
    taken: dict[int, int] = defaultdict(int)
    found = {}
    for event in sorted(events, key=lambda it: (times[it.event_id], it.type, it.event_id)):
        time = times[event.event_id]
        found[event.event_id] = Timed(event, time, taken[time])
        taken[time] += 1
    return found


def on_circle(minute: float, period: int, far: float) -> tuple[float, float]:
    """The place of a minute, so far from the middle."""
    turn = 2 * math.pi * minute / period
    return round(far * math.sin(turn), 4), round(far * math.cos(turn), 4)


def stop_picture(
    plan: Plan, stop: int, timed: dict[int, Timed], changes: list[PeriodicActivity]
) -> Picture:
    """The circle of a stop."""
    period = plan.data.settings.period_length
    layers = [ring(period), dial(period)]
    layers += change_layers(plan, period, timed, changes)
    facts = ("event", "kind", "line", "direction", "run", "minute")
    for line in sorted({it.event.line_id for it in timed.values()}):
        for kind, symbol in (("arrival", "circle"), ("departure", "triangle")):
            layer = Layer(
                f"{plan.called(line)}, {kind}s", "mark", facts, plan.colour(line), (line,)
            )
            layer.symbol, layer.width = symbol, 12
            for event, time, rank in timed.values():
                if (event.line_id, event.type) == (line, kind):
                    x, y = on_circle(time, period, RING + STEP * rank)
                    told = (event.event_id, kind, line, event.direction, event.repetition, time)
                    label = f"{line}{event.direction}"
                    name = f"event-{event.event_id}"
                    layer.shapes.append(Shape(name, [x], [y], [told], label))
            layers.append(layer)
    plane = Axis("plane")
    layers = [layer for layer in layers if layer.shapes]
    title = f"{plan.names[stop]}, a period of {period} minutes"
    return Picture(f"stop-{stop}", title, plane, plane, layers, 620, is_even=True)


def ring(period: int) -> Layer:
    """The ring of all minutes."""
    layer = Layer("ring", "stroke", ("minute",), style.QUIET, width=1, is_told=False)
    layer.in_legend = False
    steps = range(-(-120 // period) * period + 1)
    minutes = [step * period / (len(steps) - 1) for step in steps]
    places = [on_circle(minute, period, RING) for minute in minutes]
    facts = [(round(minute, 3),) for minute in minutes]
    layer.shapes.append(Shape("ring", [x for x, _ in places], [y for _, y in places], facts))
    return layer


def dial(period: int) -> Layer:
    """The ring, with minutes at up to twelve places."""
    layer = Layer("minutes", "mark", ("minute",), style.QUIET, width=5, symbol="dot")
    layer.in_legend = False
    step = next(it for it in (1, 2, 5, 10, 15, 30, 60, 120) if period / it <= 12)
    for minute in range(0, period, step):
        x, y = on_circle(minute, period, RING - 0.12)
        layer.shapes.append(Shape(f"minute-{minute}", [x], [y], [(minute,)], f"{minute}"))
    return layer


def change_layers(
    plan: Plan, period: int, timed: dict[int, Timed], changes: list[PeriodicActivity]
) -> list[Layer]:
    """A chord for each change, and a mark on it that tells of it."""
    layers: dict[tuple[int, int, int], tuple[Layer, Layer]] = {}
    for by in changes:
        if by.from_event not in timed or by.to_event not in timed:
            continue
        first, second = timed[by.from_event], timed[by.to_event]
        minutes = by.lower_bound + (second.time - first.time - by.lower_bound) % period
        slack = minutes - by.lower_bound
        rank = next(place for place, it in enumerate(SLACKS) if slack <= it[0])
        lines = first.event.line_id, second.event.line_id
        if (*lines, rank) not in layers:
            layers[*lines, rank] = fresh_layers(rank, lines)
        chords, marks = layers[*lines, rank]
        a, b = (on_circle(it.time, period, RING + STEP * it.rank) for it in (first, second))
        name, id = f"change-{by.activity_id}", by.activity_id
        chords.shapes.append(Shape(name, [a[0], b[0]], [a[1], b[1]], [(id,)] * 2))
        x, y = (round(0.3 * one + 0.7 * two, 4) for one, two in zip(a, b))
        told = (id, by.from_event, by.to_event, *lines, minutes, slack)
        marks.shapes.append(Shape(f"{name}-mark", [x], [y], [told]))
    shown: set[int] = set()
    for (_, _, rank), (_, marks) in sorted(layers.items(), key=lambda it: it[0]):
        marks.in_legend = rank not in shown
        shown.add(rank)
    return [layer for _, two in sorted(layers.items()) for layer in two]


def fresh_layers(rank: int, lines: tuple[int, int]) -> tuple[Layer, Layer]:
    """A layer of chords of one look, and one of the marks on them."""
    _, name, colour, dash = SLACKS[rank]
    facts = ("change", "from event", "to event", "from line", "to line", "minutes", "slack")
    chords = Layer(name, "stroke", ("change",), colour, lines, width=1, dash=dash, is_told=False)
    marks = Layer(name, "mark", facts, colour, lines, width=7, symbol="diamond")
    chords.in_legend = False
    return chords, marks
