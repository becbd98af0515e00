"""Activities in the words of planners: lines, stops and minutes."""

from collections import Counter

from ..formats import PeriodicActivity, PeriodicEvent
from .context import Context


def core_lines(it: Context, activities: list[PeriodicActivity], period: int) -> list[str]:
    """Some activities in words; drives and waits that follow one another are one way."""
    uses = Counter(end for by in activities for end in (by.from_event, by.to_event))
    ways: list[list[PeriodicActivity]] = []
    others = []
    for by in sorted(activities, key=lambda by: (by.type not in ("drive", "wait"), by.from_event)):
        if by.type not in ("drive", "wait"):
            others.append(by)
        elif ways and ways[-1][-1].to_event == by.from_event and uses[by.from_event] == 2:
            ways[-1].append(by)
        else:
            ways.append([by])
    told = [_way(it, way) for way in ways] + [_joint(it, by, period) for by in others]
    return told + _circle(activities, period)


def _line(it: Context, event: PeriodicEvent) -> str:
    """The run of an event: its line with its direction, and its number where there are several."""
    several = any(
        other.line_id == event.line_id and other.repetition > 1
        for other in it.names.periodic.values()
    )
    number = f", run {event.repetition}," if several else ""
    return f"line {event.line_id} {event.direction}{number}"


def _minutes(lower: int, upper: int) -> str:
    return f"{lower} minutes" if lower == upper else f"{lower} to {upper} minutes"


def _way(it: Context, way: list[PeriodicActivity]) -> str:
    """Drives and waits of a run that follow one another."""
    first, last = it.names.periodic[way[0].from_event], it.names.periodic[way[-1].to_event]
    minutes = _minutes(sum(by.lower_bound for by in way), sum(by.upper_bound for by in way))
    start, end = it.names.stop(first.stop_id), it.names.stop(last.stop_id)
    if len(way) == 1 and way[0].type == "wait":
        return f"{_line(it, first)} stands at {start} for {minutes}"
    return (
        f"{_line(it, first)} goes from {start} ({first.type}) to {end} ({last.type}) in {minutes}"
    )


def _joint(it: Context, by: PeriodicActivity, period: int) -> str:
    """A change, a headway, or runs of one line that follow one another."""
    first, second = it.names.periodic[by.from_event], it.names.periodic[by.to_event]
    stop = it.names.stop(first.stop_id)
    minutes = _minutes(by.lower_bound, by.upper_bound)
    if by.type == "change":
        return f"at {stop} a change from {_line(it, first)} to {_line(it, second)} takes {minutes}"
    both = f"{_line(it, first)} and {_line(it, second)}"
    if by.type == "sync":
        return f"{both} leave {stop} {minutes} apart"
    return f"{both} leave {stop} at least {by.lower_bound} minutes apart, also in the next {period}"


def _circle(activities: list[PeriodicActivity], period: int) -> list[str]:
    """Where the activities are one circle: the minutes round it, among which no number of whole
    periods is."""
    at: dict[int, list[PeriodicActivity]] = {}
    for by in activities:
        at.setdefault(by.from_event, []).append(by)
        at.setdefault(by.to_event, []).append(by)
    if not activities or any(len(both) != 2 for both in at.values()):
        return []
    here, by = activities[0].from_event, activities[0]
    low = high = steps = 0
    while True:
        is_forward = by.from_event == here
        low += by.lower_bound if is_forward else -by.upper_bound
        high += by.upper_bound if is_forward else -by.lower_bound
        here, steps = (by.to_event if is_forward else by.from_event), steps + 1
        if here == activities[0].from_event:
            break
        by = next(other for other in at[here] if other is not by)
    if steps != len(activities):
        return []
    if high < 0:
        low, high = -high, -low
    return [f"once round they take {low} to {high} minutes, and no multiple of {period} is there"]
