"""Space-time diagrams: where the trips of a line, or those along a path of stops, are at which time.

Such diagrams are due to C. Ibry and were made known by E. J. Marey, La méthode graphique, 1878.
"""

from collections import defaultdict
from itertools import accumulate
from typing import NamedTuple

from ..clocks import clock
from ..faults import Refused
from ..formats import ACTIVITY_DELAYS, DAY_ACTIVITIES, DAY_EVENTS, DISPOSITION, EDGES, STOPS, TRIPS
from ..formats import DayActivity
from . import style
from .plan import DayTrip, Plan
from .scene import Axis, Facts, Layer, Picture, Section, Shape, Value

FACTS = ("event", "trip", "kind", "stop", "disposed", "minutes after the last")
LATE_FACTS = ("event", "trip", "kind", "stop", "planned", "minutes late")
Run = tuple[DayTrip, int, list[float]]  # a trip, its first event that is drawn, the places


class Walk(NamedTuple):
    """Stops in a row, and how far each is along the way, in units of length."""

    stops: tuple[int, ...]
    along: tuple[float, ...]


def walk_of(plan: Plan, stops: tuple[int, ...]) -> Walk:
    """The walk over some stops; stops without an edge between them are one unit apart. Stops that
    are very near are drawn a little apart."""
    steps = [plan.lengths.get(frozenset(ends), 10**6) / 1e6 for ends in zip(stops, stops[1:])]
    least = sum(steps) / 60
    along = [0.0, *accumulate(max(step, least) for step in steps)]
    return Walk(stops, tuple(round(far, 7) for far in along))


def space_time_section(plan: Plan) -> Section:
    """A diagram for each line, and for each path of stops that was asked for."""
    section = Section(
        "space-time",
        "Space-time diagrams",
        "Time goes to the right, the way of the line upwards. A steep stroke is a fast trip, a flat"
        " one waits. Strokes that meet on open track are vehicles that meet. Dashed red is where a"
        " late trip really is; a cross is a change that is missed, at the arrival of those who miss"
        " it. Pointing at a departure tells how many minutes after the last one over the same edge"
        " it leaves.",
    )
    section.left_out = plan.missing(STOPS, EDGES, DAY_EVENTS, TRIPS)
    if section.left_out:
        return section
    for files in ((DISPOSITION,), (DAY_ACTIVITIES,)):
        if why := plan.missing(*files):
            section.about += f" {why}, so nothing is said of delays or missed changes."
    apart = headways(plan)
    missed = missed_changes(plan)
    for path in plan.choice.paths:
        section.pictures.append(path_picture(plan, path, apart, missed))
    for line in plan.all_lines:
        section.pictures += line_pictures(plan, line, apart, missed)
    if not section.pictures:
        section.left_out = "no trip is drawn with these lines and times"
    return section


def headways(plan: Plan) -> dict[int, int]:
    """By how many minutes each departure comes after the last one from its stop to the same next
    stop, as planned; none for the first."""
    leaving = defaultdict(list)
    for trip in plan.all_trips:
        for first, second in zip(trip.events[::2], trip.events[1::2]):
            leaving[first.stop_id, second.stop_id].append((first.time, first.event_id))
    found = {}
    for times in leaving.values():
        times.sort()
        for (before, _), (time, event) in zip(times, times[1:]):
            found[event] = time - before
    return found


def missed_changes(plan: Plan) -> dict[int, list[DayActivity]]:
    """The changes that are missed, by the event where their passengers arrive: the departure is
    before the arrival, the least minutes of the change and its delay."""
    if DISPOSITION not in plan.data or DAY_ACTIVITIES not in plan.data:
        return {}
    longer = dict(plan.data.get(ACTIVITY_DELAYS).rows)
    found = defaultdict(list)
    for by in plan.data[DAY_ACTIVITIES]:
        if by.type == "change":
            least = by.lower_bound + longer.get(by.activity_id, 0)
            if plan.disposed[by.to_event] - plan.disposed[by.from_event] < least:
                found[by.from_event].append(by)
    return dict(found)


def line_pictures(
    plan: Plan, line: int, apart: dict[int, int], missed: dict[int, list[DayActivity]]
) -> list[Picture]:
    """A diagram of a line; more than one where its trips do not all take one way."""
    groups: dict[tuple[int, ...], list[DayTrip]] = defaultdict(list)
    for trip in plan.trips:
        if trip.line == line:
            groups[min(trip.stops, trip.stops[::-1])].append(trip)
    found = []
    for number, trips in enumerate(groups.values(), 1):
        walk = walk_of(plan, trips[0].stops)
        runs = [(trip, 0, places_on(walk, trip)) for trip in trips]
        more = f", way {number}" if len(groups) > 1 else ""
        key = f"line-{line}" + (f"-{number}" if more else "")
        ends = " – ".join(plan.names[stop] for stop in (walk.stops[0], walk.stops[-1]))
        called = plan.called(line)
        title = f"{called[:1].upper()}{called[1:]}{more}: {ends}"
        found.append(diagram(plan, key, title, walk, runs, apart, missed))
    return found


def places_on(walk: Walk, trip: DayTrip) -> list[float]:
    """How far each event of a trip is along the walk of its line."""
    along = walk.along if trip.stops == walk.stops else walk.along[::-1]
    return [along[(place + 1) // 2] for place in range(len(trip.events))]


def path_picture(
    plan: Plan, path: tuple[int, ...], apart: dict[int, int], missed: dict[int, list[DayActivity]]
) -> Picture:
    """A diagram of all trips over a path of stops, in both directions."""
    for first, second in zip(path, path[1:]):
        if frozenset((first, second)) not in plan.lengths:
            names = " and ".join(plan.names[stop] for stop in (first, second))
            raise Refused(f"--path: no edge joins {names} (stops {first} and {second})")
    walk = walk_of(plan, path)
    far = dict(zip(walk.stops, walk.along))
    at = {stop: place for place, stop in enumerate(path)}
    runs: list[Run] = []
    for trip in plan.trips:
        stops, open_at = trip.stops, -2
        for place, (first, second) in enumerate(zip(stops, stops[1:])):
            if abs(at.get(first, -9) - at.get(second, 99)) != 1:
                continue
            if open_at != place - 1:
                runs.append((trip, 2 * place, []))
            open_at = place
            runs[-1][2].extend((far[first], far[second]))
    ends = " – ".join(plan.names[stop] for stop in path)
    key = "path-" + "-".join(map(str, path))
    return diagram(plan, key, f"Path {ends}", walk, runs, apart, missed)


def diagram(
    plan: Plan,
    key: str,
    title: str,
    walk: Walk,
    runs: list[Run],
    apart: dict[int, int],
    missed: dict[int, list[DayActivity]],
) -> Picture:
    """A diagram of parts of trips over a walk."""
    layers: list[Layer] = []
    for line in sorted({trip.line for trip, _, _ in runs}):
        mine = [run for run in runs if run[0].line == line]
        colour, lines = plan.colour(line), (line,)
        planned = Layer(f"{plan.called(line)}, planned", "stroke", FACTS, colour, lines, width=1.4)
        planned.dash = plan.dash(line)
        late = Layer(f"{plan.called(line)}, disposed", "stroke", LATE_FACTS, style.ALARM, lines)
        late.width, late.dash = 1.8, "dash"
        for run in mine:
            planned.shapes.append(stroke(plan, "trip", run, apart, is_disposed=False))
            if part := late_part(run):
                late.shapes.append(stroke(plan, "late-trip", part, apart, is_disposed=True))
        layers += [planned, late, missed_layer(plan, line, mine, missed)]
    ticks = tuple((far, plan.names[stop]) for stop, far in zip(walk.stops, walk.along))
    y = Axis("named", "", ticks, -0.03 * walk.along[-1], 1.03 * walk.along[-1])
    height = max(320, 120 + 26 * len(walk.stops))
    layers = [layer for layer in layers if layer.shapes]
    return Picture(key, title, time_axis(plan), y, layers, height)


def late_part(run: Run) -> Run | None:
    """The part of a run from the event before its first late one to the event after its last."""
    trip, first, places = run
    late = [
        place
        for place in range(first, first + len(places))
        if trip.disposed[place] != trip.events[place].time
    ]
    if not late:
        return None
    begin = max(late[0] - 1, first)
    return trip, begin, places[begin - first : late[-1] + 2 - first]


def time_axis(plan: Plan) -> Axis:
    """The axis of the minutes of the day."""
    return Axis("time", "", (), plan.choice.begin, plan.choice.end)


def stroke(plan: Plan, kind: str, run: Run, apart: dict[int, int], is_disposed: bool) -> Shape:
    """A part of a trip as a stroke."""
    trip, first, places = run
    x: list[float] = []
    facts: list[Facts] = []
    for place in range(first, first + len(places)):
        event, disposed = trip.events[place], trip.disposed[place]
        name, late = plan.names[event.stop_id], disposed - event.time
        told: Facts = (event.event_id, trip.id, event.type, name)
        if is_disposed:
            x.append(disposed)
            facts.append((*told, clock(event.time), late))
        else:
            x.append(event.time)
            then = clock(disposed) if late else ""
            facts.append((*told, then, apart.get(event.event_id, "")))
    return Shape(f"{kind}-{trip.id}" + (f"-{first}" if first else ""), x, places, facts)


def missed_layer(
    plan: Plan, line: int, runs: list[Run], missed: dict[int, list[DayActivity]]
) -> Layer:
    """The changes from arrivals of a line that are missed."""
    facts = ("change", "from event", "to event", "to trip", "to line", "stop", "arrives", "leaves")
    layer = Layer(f"{plan.called(line)}, missed changes", "mark", facts, style.ALARM, (line,))
    layer.symbol, layer.width = "cross", 9
    for trip, first, places in runs:
        for place, far in enumerate(places, first):
            event = trip.events[place]
            for by in missed.get(event.event_id, ()):
                other = plan.trip_of[by.to_event]
                there: tuple[Value, ...] = (by.activity_id, by.from_event, by.to_event)
                there += (other.id, other.line, plan.names[event.stop_id])
                then = plan.disposed[by.from_event], plan.disposed[by.to_event]
                told = (*there, *map(clock, then))
                shape = Shape(f"missed-{by.activity_id}", [then[0]], [far], [told])
                layer.shapes.append(shape)
    return layer
