"""What part of a feed would fit into the limits of the program, where the whole does not.

A part is a window, a type of routes, a period, a least share of ways, and so many routes. Routes are
taken one by one, grown from the busiest station: next comes the one with most trips among those that
share a station with routes that are taken, so no line is cut and the network is one.
"""

from collections import Counter
from collections.abc import Iterator
from typing import NamedTuple

from ..clocks import clock
from .lines import Line, Part, lines_of, parts_of
from .periods import Window, frequency_of
from .plan import Plan, plan_of
from .rides import Rides
from .sizes import estimated, sizes, too_large
from .words import Box

HOURS = (6, 4, 2, 1)  # of windows that are tried
PERIODS = (60, 30, 20, 15, 12, 10)
OTHER_PERIODS = (60, 30, 20, 15, 10, 12, 40, 45, 90, 120)
SHARE = 0.05
SHARES = (0.05, 0.2)
MOST_PLANNED = 1.5  # trips of the plan for each one of the feed, which it replaces
SHOWN = 8
FEW = 0.1  # of the stations: such a part is not told while another one keeps more


class Choice(NamedTuple):
    """Which part of the trips is taken."""

    window: tuple[int, int]
    period: int
    area: Box | None
    kind: int | None = None
    share: float = SHARE
    routes: int | None = None

    def words(self, given: "Choice") -> str:
        """The words that choose this part where others are given already."""
        found = []
        if self.window != given.window:
            found.append(f"--from {clock(self.window[0])} --to {clock(self.window[1])}")
        if self.kind != given.kind:
            found.append(f"--route-type {self.kind}")
        if self.period != given.period:
            found.append(f"--period {self.period}")
        if self.share != given.share:
            found.append(f"--share {round(100 * self.share)}")
        if self.routes != given.routes:
            found.append(f"--routes {self.routes}")
        return " ".join(found)


class Fit(NamedTuple):
    """A part that fits: its words, and what it has."""

    choice: Choice
    stations: int
    lines: int
    trips: int
    planned: int
    events: int


def taken(rides: Rides, choice: Choice, left: Counter[str]) -> list[Part]:
    """The trips of a choice, cut to its area."""
    there = rides.all
    if choice.kind is not None:
        there = [it for it in there if rides.routes[it.route].is_of(choice.kind)]
    parts = parts_of(there, rides.stations, choice.window, choice.area, left)
    if choice.routes is None:
        return parts
    routes = set(grown(parts)[: choice.routes])
    found = [part for part in parts if part.ride.route in routes]
    left["trips of other routes"] += len(parts) - len(found)
    return found


def planned(rides: Rides, choice: Choice, left: Counter[str]) -> tuple[Plan, list[Part]] | None:
    """The plan of a part of the trips, with these; none where nothing is left."""
    parts = taken(rides, choice, left)
    if not parts:
        return None
    lines, called = lines_of(parts, rides.routes, left, choice.share)
    return plan_of(called, lines, rides, choice.period), called


def grown(parts: list[Part]) -> list[str]:
    """The routes in the order in which they are taken."""
    trips = Counter(part.ride.route for part in parts)
    calls = Counter(station for part in parts for station in part.way)
    stations: dict[str, set[int]] = {route: set() for route in trips}
    for part in parts:
        stations[part.ride.route].update(part.way)
    reached = {calls.most_common(1)[0][0]} if calls else set[int]()
    left = dict(trips.most_common())
    found: list[str] = []
    while left:
        next_one = next((it for it in left if not reached.isdisjoint(stations[it])), None)
        route = next_one or next(iter(left))
        found.append(route)
        reached |= stations[route]
        del left[route]
    return found


def fits(rides: Rides, choice: Choice) -> list[Fit]:
    """Parts that fit, those with most trips first; each was planned and counted."""
    tries: dict[tuple[tuple[int, int], int | None], list[tuple[int, Choice]]] = {}
    for narrower in _parts(rides, choice):
        for kept, it in _with_routes(rides, narrower):
            tries.setdefault((it.window, it.kind), []).append((kept, it))
    found = []
    for of_part in tries.values():
        for _, it in sorted(of_part, key=lambda it: (-it[0], -it[1].period))[:2]:
            if (fit := _verified(rides, it)) is not None:
                found.append(fit)
                break
    found.sort(key=lambda it: (-it.trips, -it.stations))
    most = len({call.station for ride in rides.all for call in ride.calls})
    return [it for at, it in enumerate(found) if at == 0 or it.stations >= FEW * most][:SHOWN]


def _parts(rides: Rides, choice: Choice) -> Iterator[Choice]:
    """The windows and types of routes that are tried, with the shares of ways."""
    shares = [choice.share, *(it for it in SHARES if it > choice.share)]
    windows = [choice.window, *_windows(rides, choice.window)]
    kinds = Counter(rides.routes[it.route].told for it in rides.all)
    for window in windows:
        for share in shares:
            yield choice._replace(window=window, share=share)
        if choice.kind is None and len(kinds) > 1:
            for kind, _ in kinds.most_common(3):
                yield choice._replace(window=window, kind=kind)


def _windows(rides: Rides, within: tuple[int, int]) -> Iterator[tuple[int, int]]:
    """The hours in which most trips start, for each number of hours."""
    starts = Counter(ride.calls[0].departure // 60 for ride in rides.all)
    for count in HOURS:
        hours = [it for it in starts if within[0] <= 60 * it <= within[1] - 60 * count + 1]
        if hours:
            best = max(hours, key=lambda it: (sum(starts[it + at] for at in range(count)), -it))
            yield 60 * best, 60 * (best + count) - 1


def _with_routes(rides: Rides, choice: Choice) -> Iterator[tuple[int, Choice]]:
    """For each period the most routes that fit by an estimate, with the trips that are kept."""
    parts = taken(rides, choice, Counter())
    if not parts:
        return
    lines, _ = lines_of(parts, rides.routes, Counter(), choice.share)
    by_route: dict[str, list[Line]] = {}
    for line in lines:
        by_route.setdefault(line.route, []).append(line)
    order = [route for route in grown(parts)][: choice.routes]
    first, last = min(it.start for it in parts), max(it.start for it in parts)
    for period in dict.fromkeys((choice.period, *PERIODS)):
        window = Window(first, last, period)
        count = _most_routes([by_route.get(it, []) for it in order], window)
        if count:
            kept = sum(
                len(line.forward) + len(line.backward)
                for route in order[:count]
                for line in by_route.get(route, ())
            )
            routes = count if count < len(order) else choice.routes
            yield kept, choice._replace(period=period, routes=routes)


def _most_routes(lines: list[list[Line]], window: Window) -> int:
    """How many routes, the first ones of some, fit by an estimate and are driven about as often as
    in the feed."""
    least, most = 0, len(lines)
    while least < most:
        count = (least + most + 1) // 2
        of = [line for route in lines[:count] for line in route]
        if estimated([(line.way, frequency_of(line, window)) for line in of], window.periods):
            least = count
        else:
            most = count - 1
    return least


def _verified(rides: Rides, choice: Choice) -> Fit | None:
    """A part that is planned; with ever fewer routes, where it does not fit after all."""
    for _ in range(4):
        made = planned(rides, choice, Counter())
        if made is None:
            return None
        plan, _ = made
        has = sizes(plan)
        trips = sum(len(it.forward) + len(it.backward) for it in plan.lines.values())
        if not too_large(plan):
            if has["trips"] > MOST_PLANNED * trips + 10:
                return None
            events = has["periodic events"]
            return Fit(choice, has["stops"], has["lines"], trips, has["trips"], events)
        now = choice.routes or len({line.route for line in plan.lines.values()})
        choice = choice._replace(routes=now - max(1, now // 10))
        if now < 2:
            return None
    return None


def told(found: list[Fit], given: Choice) -> list[str]:
    """The table of what fits."""
    rows = ["what would fit, with most trips first; --fit takes the first:"]
    rows.append("stations  lines  trips  planned  periodic events  words")
    for it in found:
        counts = f"{it.stations:8}  {it.lines:5}  {it.trips:5}  {it.planned:7}  {it.events:15}"
        rows.append(f"{counts}  {it.choice.words(given)}")
    return rows


def better_period(rides: Rides, parts: list[Part], plan: Plan) -> str:
    """Words for another period with which more lines would be as in the feed; none where there is
    no such period."""
    lines = list(plan.lines.values())
    best = plan
    for period in OTHER_PERIODS:
        if best.periodic < len(lines) and period != plan.window.period:
            other = plan_of(parts, lines, rides, period)
            if other.periodic > best.periodic and not too_large(other):
                best = other
    if best is plan:
        return ""
    return f"--period {best.window.period} would have {best.periodic} of {len(lines)} lines so"
