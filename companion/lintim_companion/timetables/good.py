"""Timetables that are good for passengers: where the search begins, what is told, what is written."""

from argparse import Namespace
from collections.abc import Callable
from pathlib import Path

import numpy

from .. import dataset, files, formats, highs, program
from ..dataset import Dataset
from ..faults import Refused
from ..hand import copy_hand_files
from ..manners import Deadline, Progress, Talk
from .improve import Search
from .network import PeriodicNetwork, Real, Whole, periodic_network, whole
from .objective import Objective, OfCustomers, OwnWeights, WithTurnarounds
from .own_weights import read_weights
from .problem import periodic_problem, timetable_rows
from .routes import Router, demand_of
from .slack_program import slack_program
from .solve import feasible
from .turnarounds import terminals

MOST_ACTIVITIES = 4_000  # that count, for which HiGHS is asked
FEW_ACTIVITIES = 600  # that count, for which HiGHS is asked before the search, too
CHANGE_PENALTY = 10  # minutes for which a change counts beyond those it takes
FOR_HIGHS = 0.2  # of the time, before the search and after it


class Goodness:
    """A network with its demand, and what is told of a timetable of it."""

    def __init__(self, data: Dataset, words: Namespace) -> None:
        self.network = periodic_network(data)
        demand = demand_of(data)
        given = words.change_penalty
        penalty = CHANGE_PENALTY if given is None else given
        self.router = Router(self.network, demand, penalty)
        self.own: Real | None = None
        if words.weights:
            self.own = read_weights(words.weights, len(self.network.lower))
        elif not len(demand.origin):
            raise Refused("basis/OD.giv has no demand: name weights by --weights FILE")

    def objective(self, data: Dataset, words: Namespace, start: Whole) -> Objective:
        """What timetables are compared by."""
        of: Objective
        if self.own is not None:
            of = OwnWeights(self.network, self.own)
        else:
            of = OfCustomers(self.router)
        if words.few_vehicles:
            at = terminals(self.network, data.settings.vs_turn_over_time)
            of = WithTurnarounds(of, self.network, at, start)
        return of

    def told(self, times: Whole) -> list[str]:
        """What is told of a timetable, in parts."""
        network, parts = self.network, []
        if len(self.router.goals):
            routing = self.router.route(times)
            parts.append(f"{routing.minutes:.3f} minutes from stop to stop")
            parts.append(f"{routing.change_minutes:.3f} of them at {routing.changes:.3f} changes")
        if self.own is not None:
            parts.append(f"weighted slack {float(self.own @ network.slack(times)):.10g}")
        for kind in ("drive", "wait", "change"):
            parts.append(f"{kind}s {network.minutes(kind, times)}")
        return [*parts, f"slack {int(network.slack(times).sum())}"]


def make_good(data: Dataset, words: Namespace, deadline: Deadline, talk: Talk) -> None:
    """Makes the timetable of now better, and writes each better one."""
    if not len(data[formats.PERIODIC_EVENTS]):
        raise Refused("no line is driven, so there is nothing to be timed")
    good = Goodness(data, words)
    start = start_times(data, good.network, deadline, talk)
    talk.say(f"timetable: before: {', '.join(good.told(start))}")
    objective = good.objective(data, words, start)

    def found(times: Whole) -> None:
        rows = timetable_rows([int(time) for time in times])
        talk.write(words.folder, formats.PINNED_TIMETABLE, rows)

    best, says = improved(good.network, objective, start, deadline, talk.progress, found)
    if says:
        talk.say(f"timetable: {says}")
    talk.say(f"timetable: after:  {', '.join(good.told(best))}")
    _tell_vehicles(words.folder, start, best, talk)
    name = formats.PINNED_TIMETABLE.name
    talk.say(f"timetable: found in {deadline.spent():.1f} s, written to {name}")


def start_times(data: Dataset, network: PeriodicNetwork, deadline: Deadline, talk: Talk) -> Whole:
    """Times that keep all bounds: those that are pinned, else those of the program, else by
    CaDiCaL."""
    for file in (formats.PINNED_TIMETABLE, formats.TIMETABLE):
        try:
            rows = list(data.get(file))
        except Refused:
            continue
        times = whole([row.time for row in rows])
        is_whole = [row.event_id for row in rows] == list(range(1, network.events + 1))
        if is_whole and (times < network.period).all() and network.is_kept(times):
            return times
    found = feasible(periodic_problem(data), deadline, talk.progress)
    if found is None:
        raise Refused("no timetable keeps all bounds, CaDiCaL says")
    return whole(found)


def improved(
    network: PeriodicNetwork,
    objective: Objective,
    start: Whole,
    deadline: Deadline,
    progress: Progress,
    found: Callable[[Whole], None],
) -> tuple[Whole, str]:
    """The best times that are found in time, and what HiGHS says of the slack of their routes. HiGHS
    is asked at the beginning, where the network is small, and at the end."""
    search = Search(network, objective, deadline, progress, found)
    search.take(start, objective.value(start))
    ask_highs(search, Deadline(FOR_HIGHS * deadline.left()), FEW_ACTIVITIES)
    search.deadline = Deadline((1 - FOR_HIGHS) * deadline.left())
    search.run(search.best)
    says = ask_highs(search, Deadline(deadline.left()))
    return search.best, says


def ask_highs(search: Search, deadline: Deadline, most: int = MOST_ACTIVITIES) -> str:
    """Asks HiGHS for the least slack under the weights of the best times, and takes what is better;
    gives what it says of the slack of these routes, nothing where the network is too large."""
    best = search.best
    near = search.objective.weighted(best)
    program_of = slack_program(near.network, near.weights)
    if not 0 < len(program_of.activities) <= most or deadline.is_over():
        return ""

    def found(answer: highs.Answer) -> None:
        times = program_of.times(answer)
        if times is not None:
            search.take(times, search.objective.value(times))
            search.alternate(times)

    try:
        answer = highs.solve(program_of.mixed, deadline, search.progress, found)
    except Refused as why:
        return f"no bound is known: {why}"
    now = float(near.weights @ near.network.slack(best))
    if answer.bound is None or not numpy.isfinite(answer.bound):
        return ""
    loops = near.network.first == near.network.second
    bound = max(answer.bound, 0.0) + float(near.weights[loops] @ near.network.slack(best)[loops])
    gap = f", a gap of {max(0.0, now - bound) / now:.1%}" if now > 0 else ""
    return (
        f"by the weights at the end the slack is {now:.10g}; HiGHS says that none has less than "
        f"{bound:.10g}{gap}"
    )


def _tell_vehicles(folder: Path, start: Whole, best: Whole, talk: Talk) -> None:
    """Tells how many vehicles `lintim make` needs with the two timetables, on copies."""
    try:
        before, after = vehicles(folder, start), vehicles(folder, best)
    except Refused as why:
        talk.say(f"timetable: how many vehicles it needs is not known: {why}")
        return
    if before is not None and after is not None:
        talk.say(f"timetable: lintim make then needs {after} vehicles, and {before} before")


def vehicles(folder: Path, times: Whole) -> int | None:
    """How many vehicles `lintim make` needs with a timetable; none where it ends early."""
    with files.scratch("lintim-timetable-") as copy:
        copy_hand_files(folder, copy)
        dataset.write(copy, formats.PINNED_TIMETABLE, timetable_rows([int(it) for it in times]))
        dataset.write_settings(copy, {"pin_timetable": "yes", "pin_vehicles": "no"})
        if program.run(copy, "make").status != 0:
            return None
        values = {row.key: row.value for row in dataset.read(copy)[formats.STATISTIC]}
        return int(values["vs_vehicles"] // 10**6)
