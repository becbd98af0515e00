"""The day of LinTim beside the one that `lintim` rolls out: trips by their first event and minute,
the schedule of vehicles, and delays."""

from typing import NamedTuple

from .. import formats
from ..cells import File
from ..dataset import Dataset
from ..formats import PERIODIC_EVENTS, ActivityDelay, EventDelay, Settings
from ..schedules.problem import FAR, Successors, VehicleProblem
from . import forms
from .keys import LATEST, Units
from .periodic import Periodic
from .source import Notes, Source

Start = tuple[int, int]  # the periodic event here with which a trip starts, and its minute
DAY_FILES = (forms.TRIPS, forms.DAY_EVENTS)


class Starts(NamedTuple):
    """The trips of LinTim by their starts here, with LinTim's event, and how many have none."""

    there: dict[Start, int]
    left: int


def starts_of(source: Source, periodic: Periodic, units: Units, notes: Notes) -> Starts | None:
    """The starts of the trips of a folder; none where they are not there."""
    if forms.TRIPS not in source:
        return None
    found: dict[Start, int] = {}
    left = 0
    for trip in source.optional(forms.TRIPS, notes):
        start = _start(periodic, units, trip.periodic_start_ID, trip.start_time)
        if start is None or start in found:
            left += 1
        else:
            found[start] = trip.start_ID
    return Starts(found, left)


def _start(periodic: Periodic, units: Units, event: int, seconds: int) -> Start | None:
    minute = units.of_seconds(seconds)
    if event not in periodic.event_here or minute.denominator != 1:
        return None
    return periodic.event_here[event], int(minute)


def rolled_out(made: Dataset, times: list[int], first: int, last: int) -> set[Start]:
    """The starts of all trips here, for a day from a minute to another one."""
    period = made.settings.period_length
    runs: dict[tuple[int, str, int], int] = {}
    for it in made[PERIODIC_EVENTS]:
        runs.setdefault((it.line_id, it.direction, it.repetition), it.event_id)
    return {
        (event, minute)
        for event in runs.values()
        for minute in range(first + (times[event - 1] - first) % period, last + 1, period)
    }


def day_that_fits(
    made: Dataset, times: list[int], starts: Starts, settings: Settings, notes: Notes
) -> dict[str, int]:
    """The first and the last minute of a day that has just the trips of LinTim, where those of the
    config give others; nothing where no such day is found."""
    wanted = set(starts.there)
    first, last = settings.DM_earliest_time, settings.DM_latest_time
    if not wanted or rolled_out(made, times, first, last) == wanted:
        return {}
    ends = min(minute for _, minute in wanted), max(minute for _, minute in wanted)
    if ends[1] > LATEST or rolled_out(made, times, *ends) != wanted:
        return {}
    notes.say(f"the day goes from minute {ends[0]} to {ends[1]}, with just the trips of LinTim")
    return {"DM_earliest_time": ends[0], "DM_latest_time": ends[1]}


class Day(NamedTuple):
    """The trips here of LinTim's, and its vehicles as lists of trips here, counted from 0."""

    trip_there: dict[int, int]  # the event of LinTim with which a trip starts
    alone: list[int]  # trips that are here alone
    vehicles: dict[tuple[int, int], list[int]] | None
    lost_rows: int


def day_of(
    source: Source, made: Dataset, periodic: Periodic, units: Units, starts: Starts, notes: Notes
) -> Day:
    """The day of a folder beside the one that was made."""
    place = {(it.periodic_start_id, it.start_time): at for at, it in enumerate(made[formats.TRIPS])}
    there = {place[start]: id for start, id in starts.there.items() if start in place}
    alone = [at for at in place.values() if at not in there]
    left = starts.left + len(starts.there) - len(there)
    notes.say(f"{len(there)} of {len(starts.there) + starts.left} trips are found here")
    if left or alone:
        says = ""
        if alone:
            trip = made[formats.TRIPS][alone[0]]
            says = f"; the first here: line {trip.line} from stop {trip.start_stop} at minute"
            says += f" {trip.start_time}"
        notes.lose(f"trips that one of both days has: {left} of LinTim, {len(alone)} here{says}")
    if forms.SCHEDULE not in source:
        notes.say("there is no vehicle schedule")
        return Day(there, alone, None, 0)
    return _with_vehicles(source, place, periodic, units, Day(there, alone, None, 0), notes)


def _with_vehicles(
    source: Source,
    place: dict[Start, int],
    periodic: Periodic,
    units: Units,
    day: Day,
    notes: Notes,
) -> Day:
    """The day with the trips of each vehicle of LinTim in turn."""
    vehicles: dict[tuple[int, int], list[int]] = {}
    rows = sorted(source.optional(forms.SCHEDULE, notes), key=lambda it: it[:3])
    strange = closing = 0
    for at, row in enumerate(rows):
        is_last = at + 1 == len(rows) or rows[at + 1][:2] != row[:2]
        if row.type.upper() != "TRIP":
            closing += is_last
            continue
        start = _start(periodic, units, row.periodic_start_ID, row.start_time)
        if start is None or start not in place:
            strange += 1
            continue
        vehicles.setdefault(row[:2], []).append(place[start])
    if closing:
        notes.lose(f"{closing} empty rows that close a circulation are out: a day here ends")
    driven = [trip for trips in vehicles.values() for trip in trips]
    if strange or len(set(driven)) < len(driven) or set(driven) != set(place.values()):
        twice = len(driven) - len(set(driven))
        missed = len(set(place.values()) - set(driven))
        says = f"{strange} trips are not here, {twice} are driven twice, {missed} not at all"
        notes.lose(f"the vehicle schedule is not taken: {says}")
        return day
    return day._replace(vehicles=vehicles)


def successors(day: Day) -> Successors:
    """Which trip follows each one in its vehicle."""
    found: Successors = [None] * (len(day.trip_there) + len(day.alone))
    for trips in (day.vehicles or {}).values():
        for one, other in zip(trips, trips[1:]):
            found[one] = other
    return found


def cannot_follow(problem: VehicleProblem, links: Successors) -> tuple[int, int] | None:
    """The first two trips of which one follows the other too early here."""
    pairs = [(i, j) for i, j in enumerate(links) if j is not None]
    return next((pair for pair in pairs if not problem.may_follow[pair]), None)


def can_be_written(problem: VehicleProblem, links: Successors) -> bool:
    """Whether a walk joins the trips of each vehicle."""
    return all(problem.dead[i, j] < FAR for i, j in enumerate(links) if j is not None)


class Delays(NamedTuple):
    """Delays of events and activities here, and LinTim's ids of those of the day."""

    events: list[EventDelay]
    activities: list[ActivityDelay]
    event_there: dict[int, int]
    activity_there: dict[int, int]


def delays_of(
    source: Source, made: Dataset, periodic: Periodic, units: Units, notes: Notes
) -> Delays:
    """The delays of a folder, rounded up to minutes, on the day that was made."""
    theirs = source.optional(forms.DAY_EVENTS, notes).rows
    place = {(it.periodic_id, it.time): it.event_id for it in made[formats.DAY_EVENTS]}
    here: dict[int, int] = {}
    for it in theirs:
        start = _start(periodic, units, it.periodic_id, it.time)
        if start in place:
            here[it.event_id] = place[start]
    by_ends = {(it.from_event, it.to_event): it.activity_id for it in made[formats.DAY_ACTIVITIES]}
    activity: dict[int, int] = {}
    for row in source.optional(forms.DAY_ACTIVITIES, notes):
        ends = here.get(row.from_event, 0), here.get(row.to_event, 0)
        if ends in by_ends:
            activity[row.activity_id] = by_ends[ends]
    of_events = _rounded(source, forms.EVENT_DELAYS, here, units, "events", notes)
    of_activities = _rounded(source, forms.ACTIVITY_DELAYS, activity, units, "activities", notes)
    return Delays(
        [EventDelay(id, late) for id, late in sorted(of_events.items())],
        [ActivityDelay(id, late) for id, late in sorted(of_activities.items())],
        {ours: id for id, ours in here.items()},
        {ours: id for id, ours in activity.items()},
    )


def _rounded(
    source: Source,
    files: tuple[File[forms.Delay], ...],
    here: dict[int, int],
    units: Units,
    kind: str,
    notes: Notes,
) -> dict[int, int]:
    """Delays in minutes by ids here."""
    file = source.first_there(files)
    if file not in source:
        return {}
    found: dict[int, int] = {}
    left = rounded = 0
    for row in source.optional(file, notes):
        minutes = units.of_seconds(row.delay)
        if row.id not in here:
            left += 1
            continue
        rounded += minutes.denominator != 1
        found[here[row.id]] = -(-minutes.numerator // minutes.denominator)
    notes.say(f"{len(found)} delays of {kind} from {file.name}")
    if rounded:
        notes.lose(f"{rounded} delays of {kind} are rounded up to minutes")
    if left:
        notes.lose(f"{left} delays of {kind} that are not of the day here are left out")
    return found
