"""How large a dataset of a feed is, and what `lintim` takes at most."""

from collections import Counter

from ..limits import LIMITS
from .plan import Plan
from .ways import Way


def sizes(plan: Plan) -> dict[str, int]:
    """How large the dataset is, by the words of `LIMITS`; activities of the day at most so many."""
    events = activities = trips = day_events = day_activities = 0
    at_stop: dict[int, Counter[int]] = {}
    for name, of_line in plan.timed.items():
        edges = len(plan.lines[name].way) - 1
        for runs in (of_line.forward, of_line.backward):
            count = sum(
                len(plan.window.starts(minute)) if plan.is_timed else plan.window.periods
                for minute, _ in runs
            )
            events += len(runs) * 2 * edges
            activities += len(runs) * 2 * edges - 1
            trips += count
            day_events += count * 2 * edges
            day_activities += count * (2 * edges - 1)
        stops = plan.stations_of(name)
        for way in (stops, stops[::-1]):
            for stop in way[1:]:
                at_stop.setdefault(stop, Counter())[name] += of_line.frequency
    changes = _changes(at_stop)
    return {
        "stops": len(plan.stops),
        "edges": len(plan.edges),
        "lines": len(plan.lines),
        "periodic events": events,
        "periodic activities": activities + changes,
        "trips": trips,
        "expanded events": day_events,
        "expanded activities": day_activities + changes * plan.window.periods,
    }


def estimated(lines: list[tuple[Way, int]], periods: int) -> bool:
    """Whether lines fit, by how often each one is driven in a period in each direction."""
    at_stop: dict[int, Counter[int]] = {}
    runs = events = 0
    for name, (way, often) in enumerate(lines):
        runs += 2 * often
        events += 4 * often * (len(way) - 1)
        for stop in (*way[1:], *way[-2::-1]):
            at_stop.setdefault(stop, Counter())[name] += often
    changes = _changes(at_stop)
    return not any(
        count > LIMITS[what]
        for what, count in {
            "stops": len(at_stop),
            "lines": len(lines),
            "periodic events": events,
            "periodic activities": events - runs + changes,
            "trips": runs * periods,
            "expanded events": events * periods,
            "expanded activities": (events - runs + changes) * periods,
        }.items()
    )


def _changes(arrivals: dict[int, Counter[int]]) -> int:
    """How many changes a period has: from each arrival to each departure of another line. A line
    departs from a stop in one direction as often as it arrives there in the other one."""
    count = 0
    for of_stop in arrivals.values():
        total = sum(of_stop.values())
        count += sum(here * (total - here) for here in of_stop.values())
    return count


def too_large(plan: Plan) -> list[str]:
    """What is above the limits of the program, in words."""
    found = sizes(plan)
    return [
        f"{count} {it} (at most {LIMITS[it]})" for it, count in found.items() if count > LIMITS[it]
    ]
