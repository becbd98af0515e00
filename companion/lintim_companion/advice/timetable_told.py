"""Why no timetable keeps all bounds, and what would give one."""

from functools import partial

from .. import cadical
from ..formats import PERIODIC_ACTIVITIES, PERIODIC_EVENTS, PeriodicActivity
from ..manners import Deadline
from ..timetables.problem import PeriodicProblem, Span
from ..timetables.solve import feasible
from .context import Context
from .cores import Cores, least_good
from .findings import Finding, both, call, either, finding
from .paths import core_lines

MOST_TOLD = 14


class Network:
    """The periodic events and activities that were made, with other changes and headways."""

    def __init__(self, it: Context) -> None:
        self.it = it
        self.activities = it.names.made(PERIODIC_ACTIVITIES)
        self.events = it.names.made(PERIODIC_EVENTS)
        self.period = it.settings.period_length
        self.is_late = False  # whether time was over before a nearer value was tried

    def problem(self, changes: int | None = None, headway: int | None = None) -> PeriodicProblem:
        """The problem, with another greatest time of changes, or another headway."""
        spans = [self._span(by, changes, headway) for by in self.activities]
        return PeriodicProblem(self.period, len(self.events), spans)

    def _span(self, by: PeriodicActivity, changes: int | None, headway: int | None) -> Span:
        lower, upper = by.lower_bound, by.upper_bound
        if by.type == "change" and changes is not None:
            upper = max(lower, changes)
        if by.type == "headway" and headway is not None:
            lower, upper = headway, self.period - headway
        return Span(by.from_event - 1, by.to_event - 1, lower, upper)

    def has(self, changes: int | None = None, headway: int | None = None) -> bool:
        """Whether there is a timetable."""
        problem = self.problem(changes, headway)
        return feasible(problem, self.it.deadline, self.it.progress) is not None

    def is_good(self, changes: int | None = None, headway: int | None = None) -> bool:
        """Whether CaDiCaL says in time that there is a timetable."""
        try:
            return self.has(changes, headway)
        except cadical.NoTime:
            self.is_late = True
            return False

    @property
    def free(self) -> int:
        """A greatest time with which changes may take any minute of the period."""
        return self.it.settings.ean_default_minimal_change_time + self.period - 1


def no_timetable(it: Context) -> Finding:
    """Why there is none: headways that do not fit by their sum, else a core of activities."""
    network = Network(it)
    told = crowded(network)
    try:
        if not told:
            told = core_told(network)
        remedy = either(*keys(network))
    except cadical.NoTime:
        remedy = "give it more time with --seconds, or allow longer changes"
    told = told or ["CaDiCaL cannot tell in time which activities do not hold together"]
    told += ["time was over before nearer values were tried"] if network.is_late else []
    return finding(*told, remedy=remedy, file="basis/Config.cnf")


def spent(it: Context) -> Finding:
    """A search that ended without a timetable: CaDiCaL says whether there is one."""
    network = Network(it)
    try:
        if crowded(network) or not network.has():
            return no_timetable(it)
    except cadical.NoTime as why:
        says = f"whether there is a timetable is not known: {why}"
        return finding(says, remedy="allow longer changes or a smaller headway")
    says = "there is a timetable, CaDiCaL says, and the search of lintim ended before it"
    return finding(says, remedy=by_command(it))


def by_command(it: Context) -> str:
    """The timetable by the command of the package, and the key with which it is taken."""
    return both(call("lintim make; lintim-timetable ."), it.set_key("pin_timetable", "yes"))


def crowded(network: Network) -> list[str]:
    """Departures over one edge whose headways do not fit into the period by their sum."""
    headway, period = network.it.settings.ean_headway, network.period
    together: dict[int, set[int]] = {}
    for by in network.activities:
        if by.type == "headway":
            together.setdefault(by.from_event, {by.from_event}).add(by.to_event)
    told = []
    seen: set[int] = set()
    for first, events in together.items():
        if len(events) * headway > period and first not in seen:
            seen |= events
            event = network.it.names.periodic[first]
            told.append(
                f"{len(events)} runs leave {network.it.names.stop(event.stop_id)}"
                f"{_towards(network, first)} in {period} minutes, and with a headway of {headway}"
                f" they need {len(events) * headway}"
            )
    return told[:MOST_TOLD]


def _towards(network: Network, departure: int) -> str:
    """To which stop a departure leads."""
    arrival = network.it.names.periodic.get(departure + 1)
    return f" towards {network.it.names.stop(arrival.stop_id)}" if arrival else ""


def core_told(network: Network) -> list[str]:
    """A smallest set of activities that cannot hold together, in words."""
    it = network.it
    half = Deadline(it.deadline.left() / 2)
    cores = Cores(network.problem(), half, it.progress)
    lines = sorted({event.line_id for event in network.events})
    groups = [frozenset(_of_line(network, line)) for line in lines]
    places, is_minimal = cores.smallest(groups)
    activities = [network.activities[place] for place in places]
    told = core_lines(it, activities, network.period)
    more = [f"and {len(told) - MOST_TOLD} more such lines"] if len(told) > MOST_TOLD else []
    count = f"{len(activities)} activities of {len(network.activities)}"
    head = f"no timetable keeps these {count} together, and any but one of them fit:"
    if not is_minimal and len(told) > MOST_TOLD:
        among = sorted({it.names.periodic[by.from_event].line_id for by in activities})
        named = ", ".join(map(str, among))
        return [f"no timetable keeps all bounds; which do not fit is of lines {named}"]
    if not is_minimal:
        head = (
            f"no timetable keeps all bounds; those of these {count} do not fit, perhaps of fewer:"
        )
    return [head, *told[:MOST_TOLD], *more]


def _of_line(network: Network, line: int) -> set[int]:
    """The places of the activities that begin or end at a line."""
    events = {event.event_id for event in network.events if event.line_id == line}
    return {
        place
        for place, by in enumerate(network.activities)
        if by.from_event in events or by.to_event in events
    }


def keys(network: Network) -> list[str]:
    """The nearest values of settings with which there is a timetable."""
    it, free = network.it, network.free
    now = it.settings
    changes, headway = now.ean_default_maximal_change_time, now.ean_headway
    found = []
    if network.has(changes=free):
        least = least_good(changes, free, lambda at: network.is_good(changes=at))
        found.append(it.set_key("ean_default_maximal_change_time", least))
    if headway and network.has(headway=0):
        greatest = -least_good(-headway, 0, lambda at: network.is_good(headway=-at))
        found.append(it.set_key("ean_headway", greatest))
    if not found:
        is_good = partial(network.is_good, free)
        greatest = -least_good(-headway, 0, lambda at: is_good(-at))
        found.append(
            both(
                it.set_key("ean_default_maximal_change_time", free),
                it.set_key("ean_headway", greatest),
            )
        )
    return found
