"""Vehicles: a row for each, with its trips, empty rides and stands, and how many are out each hour."""

from collections import defaultdict

from ..clocks import clock
from ..formats import SCHEDULE, STOPS, ScheduleRow
from . import style
from .plan import Plan
from .scene import Axis, Layer, Picture, Section, Shape, Value, row_axis
from .space_time import time_axis

FACTS = ("vehicle", "row", "kind", "line", "from event", "to event", "from", "to", "start", "end")
NAMES = 40  # vehicles up to which hovering names those of an hour


def vehicle_section(plan: Plan) -> Section:
    """The rows of all vehicles, and those that are out at each hour."""
    section = Section(
        "vehicles",
        "Vehicles",
        "Each row is a vehicle. Bars in the colours of lines are trips, low grey bars empty rides, and"
        " thin strokes the turnaround, from its arrival to its next trip. Below stands how many"
        " vehicles have a trip or an empty ride in each hour.",
    )
    section.left_out = plan.missing(STOPS, SCHEDULE)
    if section.left_out:
        return section
    rows = drawn_rows(plan)
    if not rows:
        section.left_out = "no vehicle is out with these lines and times"
        return section
    section.pictures = [vehicle_picture(plan, rows), hour_picture(plan, rows)]
    return section


def drawn_rows(plan: Plan) -> list[ScheduleRow]:
    """The rows that are drawn: trips of the lines and times, and empty rides beside such a trip."""
    by_vehicle = defaultdict(list)
    for row in plan.data[SCHEDULE]:
        by_vehicle[row.circulation].append(row)
    found = []
    for rows in by_vehicle.values():
        rows.sort(key=lambda row: row.number)
        kept = [
            row.type == "TRIP"
            and plan.choice.has_line(row.line)
            and plan.choice.has_time(row.start_time, row.end_time)
            for row in rows
        ]
        for place, row in enumerate(rows):
            is_beside = row.type == "EMPTY" and any(kept[max(place - 1, 0) : place + 2])
            if kept[place] or is_beside:
                found.append(row)
    return found


def told(plan: Plan, row: ScheduleRow) -> tuple[Value, ...]:
    """What hovering tells of a row."""
    ends = plan.names[row.start_stop], plan.names[row.end_stop]
    times = clock(row.start_time), clock(row.end_time)
    kind = "trip" if row.type == "TRIP" else "empty ride"
    line: Value = row.line if row.type == "TRIP" else ""
    return (row.circulation, row.number, kind, line, row.start_id, row.end_id, *ends, *times)


def vehicle_picture(plan: Plan, rows: list[ScheduleRow]) -> Picture:
    """A row for each vehicle."""
    places = {id: place for place, id in enumerate(sorted({row.circulation for row in rows}))}
    empty = Layer("empty rides", "stroke", FACTS, style.QUIET, width=5)
    stand = Layer("turnarounds", "stroke", ("vehicle", "row"), style.QUIET, width=1)
    stand.is_told = False
    layers: dict[int, Layer] = {}
    for row, then in zip(rows, [*rows[1:], rows[-1]]):
        y, layer = float(places[row.circulation]), empty
        if row.type == "TRIP":
            name, colour = plan.called(row.line), plan.colour(row.line)
            fresh = Layer(name, "bar", FACTS, colour, (row.line,), width=0.7)
            layer = layers.setdefault(row.line, fresh)
        elif (then.circulation, then.number) == (row.circulation, row.number + 1):
            name = f"stand-{row.circulation}-{row.number}"
            facts = [(row.circulation, row.number)] * 2
            stand.shapes.append(Shape(name, [row.end_time, then.start_time], [y, y], facts))
        name = f"vehicle-{row.circulation}-{row.number}"
        x, ends = [row.start_time, row.end_time], 1 if layer.kind == "bar" else 2
        layer.shapes.append(Shape(name, x, [y] * ends, [told(plan, row)] * ends))
    y_axis, height = row_axis([f"vehicle {id}" for id in places])
    all_layers = [stand, empty, *(layers[line] for line in sorted(layers))]
    shown = [layer for layer in all_layers if layer.shapes]
    return Picture("vehicles", "Vehicles and their trips", time_axis(plan), y_axis, shown, height)


def hour_picture(plan: Plan, rows: list[ScheduleRow]) -> Picture:
    """How many vehicles have a trip or an empty ride in each hour."""
    out: dict[int, set[int]] = defaultdict(set)
    for row in rows:
        for hour in range(row.start_time // 60, max(row.end_time - 1, row.start_time) // 60 + 1):
            out[hour].add(row.circulation)
    hours = Axis("time", "", (), 60 * min(out), 60 * max(out) + 60)
    facts = ("hour", "vehicles that are out", "they are")
    areas = Layer("vehicles that are out", "area", ("hour",), style.LINE_COLOURS[3])
    marks = Layer("how many", "mark", facts, style.QUIET, width=14, symbol="none")
    areas.is_told = areas.in_legend = marks.in_legend = False
    for hour in sorted(out):
        ids = sorted(out[hour])
        which = ", ".join(map(str, ids)) if len(ids) <= NAMES else ""
        x = [60 * hour + minute for minute in (3, 57, 57, 3)]
        y = [0, 0, len(ids), len(ids)]
        areas.shapes.append(Shape(f"hour-{hour}", x, y, [(hour,)] * 4))
        top, told_of = len(ids) / 2, [(hour, len(ids), which)]
        shape = Shape(f"hour-mark-{hour}", [60 * hour + 30], [top], told_of, str(len(ids)))
        marks.shapes.append(shape)
    y_axis = Axis("number", "vehicles", (), 0, max(map(len, out.values())) * 1.1)
    layers = [areas, marks]
    return Picture("hours", "Vehicles that are out in each hour", hours, y_axis, layers, 260)
