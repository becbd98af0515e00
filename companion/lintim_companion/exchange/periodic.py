"""Periodic events of LinTim beside those that `lintim` makes: which is which by line, direction,
repetition and place along the run, the timetable, and activities that differ."""

from collections import Counter
from collections.abc import Iterable
from typing import NamedTuple

from .. import formats
from ..dataset import Dataset
from ..faults import Refused
from ..formats import PeriodicEvent, PeriodicTime
from . import forms
from .network import Lines
from .source import MENDED, Notes, Source

Run = tuple[int, str, int]  # line, direction and repetition


class Activity(NamedTuple):
    """A periodic activity of LinTim, or one here, by ids of events here."""

    id: int
    type: str
    first: int
    second: int
    lower: int
    upper: int

    @property
    def ends(self) -> tuple[str, int, int]:
        """Its kind and its events."""
        return self.type, self.first, self.second


class Periodic(NamedTuple):
    """The events and activities of LinTim by ids here, and the other way round."""

    event_here: dict[int, int]
    event_there: dict[int, int]
    activities: list[Activity]  # of LinTim, those whose events are here
    made: list[Activity]
    activity_there: dict[int, int]
    times: list[int] | None  # by events here
    differs: list[str]  # where LinTim's bounds are not those here
    is_weaker: bool  # LinTim wants more than what is judged here


def periodic_of(source: Source, made: Dataset, lines: Lines, notes: Notes) -> Periodic | None:
    """The events, activities and times of a folder, beside those that were made of its lines."""
    if forms.EVENTS not in source:
        notes.say("periodic events are not there, so no timetable is taken")
        return None
    form = source.form(forms.EVENTS, formats.PERIODIC_EVENTS)
    theirs = [forms.plain_event(row) for row in source.optional(form, notes)]
    _see_ids([it.event_id for it in theirs])
    activities = _activities(source, notes)
    here = _mapped(theirs, activities, made, lines, notes)
    there = {ours: id for id, ours in here.items()}
    events = made[formats.PERIODIC_EVENTS].rows
    times = _times(source, here, len(events), made.settings.period_length, notes)
    ours = [Activity(*row) for row in made[formats.PERIODIC_ACTIVITIES]]
    mapped = [
        it._replace(first=here[it.first], second=here[it.second])
        for it in activities
        if it.first in here and it.second in here
    ]
    period = made.settings.period_length
    mapped = [_forward(it, period) for it in mapped]
    differs, is_weaker, back = compared(mapped, ours, period)
    lost = len(activities) - len(mapped)
    if lost:
        differs.append(f"{lost} activities of LinTim lead to events that are not here")
    return Periodic(here, there, mapped, ours, back, times, differs, is_weaker or lost > 0)


def _see_ids(ids: list[int]) -> None:
    if len(set(ids)) < len(ids):
        twice = Counter(ids).most_common(1)[0][0]
        raise Refused(f"{forms.EVENTS.name} has event {twice} twice; {MENDED}")


def _activities(source: Source, notes: Notes) -> list[Activity]:
    """The activities of LinTim, by LinTim's ids of events."""
    form = source.form(forms.ACTIVITIES, formats.PERIODIC_ACTIVITIES)
    return [
        Activity(*row[:6])._replace(type=row[1].lower()) for row in source.optional(form, notes)
    ]


def _runs(events: Iterable[PeriodicEvent]) -> dict[Run, list[PeriodicEvent]]:
    found: dict[Run, list[PeriodicEvent]] = {}
    for it in events:
        found.setdefault((it.line_id, it.direction, it.repetition), []).append(it)
    return found


def _mapped(
    theirs: list[PeriodicEvent],
    activities: list[Activity],
    made: Dataset,
    lines: Lines,
    notes: Notes,
) -> dict[int, int]:
    """The event here of each event of LinTim that has one."""
    ours = _runs(made[formats.PERIODIC_EVENTS])
    after = {it.first: it.second for it in activities if it.type in ("drive", "wait")}
    here: dict[int, int] = {}
    taken: set[Run] = set()
    left = turned = 0
    for (line, direction, repetition), events in _runs(theirs).items():
        at, way = lines.here.get(line, (line, ""))
        along = _along(events, after)
        wanted = (at, way or direction, repetition)
        run = _fitting(wanted, along, ours, taken)
        if run is None:
            left += len(events)
            continue
        turned += run != wanted
        taken.add(run)
        here.update((a.event_id, b.event_id) for a, b in zip(along, ours[run]))
    if turned:
        notes.say(f"{turned} runs have the other direction here")
    alone = sum(map(len, ours.values())) - len(here)
    notes.say(f"{len(here)} of {len(theirs)} periodic events are found here")
    if left or alone:
        notes.lose(f"periodic events that one of both has: {left} of LinTim, {alone} here")
    return here


def _along(events: list[PeriodicEvent], after: dict[int, int]) -> list[PeriodicEvent]:
    """The events of a run in their order: along drives and waits, or by id where these do not join
    them all."""
    of = {it.event_id: it for it in events}
    follows = {after[id] for id in of if id in after}
    firsts = [id for id in of if id not in follows]
    along: list[PeriodicEvent] = []
    at = firsts[0] if len(firsts) == 1 else None
    while at is not None and at in of and len(along) < len(of):
        along.append(of[at])
        at = after.get(at)
    return along if len(along) == len(of) else sorted(events)


def _fitting(
    wanted: Run,
    along: list[PeriodicEvent],
    ours: dict[Run, list[PeriodicEvent]],
    taken: set[Run],
) -> Run | None:
    """The run here that calls at the same stops: in the same direction, or else in the other."""
    calls = [(it.type, it.stop_id) for it in along]
    line, direction, repetition = wanted
    for way in (direction, "<" if direction == ">" else ">"):
        run = (line, way, repetition)
        found = [(it.type, it.stop_id) for it in ours.get(run, [])]
        if run not in taken and found == calls:
            return run
    return None


def _times(
    source: Source, here: dict[int, int], count: int, period: int, notes: Notes
) -> list[int] | None:
    """The minute of each event here; none where one has none."""
    if formats.TIMETABLE not in source:
        notes.say("there is no periodic timetable")
        return None
    rows = source.optional(formats.TIMETABLE, notes).rows
    found = {here[row.event_id]: row.time for row in rows if row.event_id in here}
    beyond = sum(time >= period for time in found.values())
    if beyond:
        notes.say(f"{beyond} times are taken modulo the period of {period}")
    if len(found) < count:
        first = next(event for event in range(1, count + 1) if event not in found)
        says = f"{count - len(found)} of {count} events here have no time: the first is {first}"
        notes.lose(f"the timetable is not taken: {says}")
        return None
    return [found[event] % period for event in range(1, count + 1)]


def timetable_rows(times: list[int]) -> list[PeriodicTime]:
    """The rows of the pinned timetable."""
    return [PeriodicTime(event, time) for event, time in enumerate(times, 1)]


def compared(
    theirs: list[Activity], ours: list[Activity], period: int
) -> tuple[list[str], bool, dict[int, int]]:
    """Where activities of LinTim and here differ, in words, whether LinTim wants more, and the
    activity of LinTim for each one here."""
    by_ends: dict[tuple[str, int, int], list[Activity]] = {}
    for it in theirs:
        by_ends.setdefault(it.ends, []).append(it)
    back: dict[int, int] = {}
    bounds: dict[str, list[tuple[Activity, Activity]]] = {}
    alone: dict[str, list[Activity]] = {}
    for it in ours:
        found = by_ends.get(it.ends, [])
        if not found:
            if it.upper - it.lower < period - 1:
                alone.setdefault(it.type, []).append(it)
            continue
        other = found.pop(0)
        back[it.id] = other.id
        if (it.lower, it.upper) != (other.lower, other.upper):
            bounds.setdefault(it.type, []).append((other, it))
    more: dict[str, list[Activity]] = {}
    for it in (it for rest in by_ends.values() for it in rest):
        if it.upper - it.lower < period - 1:
            more.setdefault(it.type, []).append(it)
    told = [_bound_words(kind, pairs) for kind, pairs in bounds.items()]
    told += [f"{len(it)} {kind} activities are here alone" for kind, it in alone.items()]
    told += [_more_words(kind, it) for kind, it in more.items()]
    tighter = any(
        not _minutes(ours, period) <= _minutes(other, period)
        for pairs in bounds.values()
        for other, ours in pairs
    )
    return told, bool(more) or tighter, back


def _forward(it: Activity, period: int) -> Activity:
    """A headway that leads from the event of lower id, as those here do, with the same meaning."""
    if it.type != "headway" or it.first < it.second:
        return it
    bounds = period - it.upper, period - it.lower
    return it._replace(first=it.second, second=it.first, lower=bounds[0], upper=bounds[1])


def _minutes(it: Activity, period: int) -> set[int]:
    """The minutes of the period that an activity may take."""
    return {minute % period for minute in range(it.lower, min(it.upper, it.lower + period) + 1)}


def _bound_words(kind: str, pairs: list[tuple[Activity, Activity]]) -> str:
    other, ours = pairs[0]
    return (
        f"{len(pairs)} {kind} activities have other bounds: activity {other.id} takes"
        f" {other.lower} to {other.upper}, here {ours.lower} to {ours.upper}"
    )


def _more_words(kind: str, found: list[Activity]) -> str:
    return f"{len(found)} {kind} activities are in LinTim alone: the first is {found[0].id}"


def broken(activities: list[Activity], times: list[int], period: int) -> list[Activity]:
    """The activities that times do not keep."""
    return [
        it
        for it in activities
        if (times[it.second - 1] - times[it.first - 1] - it.lower) % period > it.upper - it.lower
    ]
