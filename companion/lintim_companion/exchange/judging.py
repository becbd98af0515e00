"""A verdict over the plans of a folder of LinTim, in its own ids: they are pinned in a copy, and
`lintim make` and `check` judge them. Nothing of the folder is believed."""

import re
from collections.abc import Callable
from dataclasses import dataclass, field
from pathlib import Path

from .. import dataset, files, formats, program
from ..faults import Refused
from ..formats import CONCEPT, LINE_COSTS, LOADS, PINNED_CONCEPT, PINNED_TREE, TIMETABLE
from ..line_concepts.problem import LineProblem, concept_rows, line_problem
from ..line_concepts.proofs import tree_rows
from ..line_concepts.solve import cheapest, proved
from ..manners import Deadline, Progress
from ..rows import millionths, number_text
from ..schedules.problem import vehicle_problem
from . import day as days
from . import planning
from .periodic import Activity, broken
from .taking import Taken

COST = re.compile(r"(?:concept: cost|vehicles: (\d+) vehicles, cost) ([0-9.]+), (.*)")
SHOWN = 3


@dataclass
class Verdict:
    """What is told, and which plans are kept and which are not."""

    tell: Callable[[str], None] = lambda _: None
    lines: list[str] = field(default_factory=list)
    kept: list[str] = field(default_factory=list)
    broken: list[str] = field(default_factory=list)
    open: list[str] = field(default_factory=list)

    def say(self, line: str) -> None:
        """Tells a line, at once."""
        self.lines.append(line)
        self.tell(line)

    @property
    def last(self) -> str:
        """The verdict in one line."""
        parts = (("kept", self.kept), ("not kept", self.broken), ("not judged", self.open))
        return "; ".join(f"{word}: {', '.join(it)}" for word, it in parts if it) or "no plan there"


class Judge:
    """The judge of one folder."""

    def __init__(
        self,
        it: Taken,
        scratch: Path,
        deadline: Deadline,
        progress: Progress,
        tell: Callable[[str], None] = lambda _: None,
    ) -> None:
        self.it, self.scratch, self.deadline, self.progress = it, scratch, deadline, progress
        self.verdict = Verdict(tell)

    def judged(self) -> Verdict:
        """Judges plan by plan, as far as they stand on what is kept."""
        it = self.it
        if it.lines.frequency is None or it.loads is None and not it.demand:
            self.verdict.open.append("concept")
            return self.verdict
        self._concept()
        if it.periodic is None or it.periodic.times is None:
            self.verdict.open.append("timetable")
            return self.verdict
        if not self._timetable():
            self.verdict.open.append("vehicle schedule")
            return self.verdict
        if "pin_vehicles" in it.pins:
            self._schedule()
        else:
            self.verdict.open.append("vehicle schedule")
        return self.verdict

    def folder(self, name: str, **more: int | str) -> Path:
        """A copy of the new dataset with settings more."""
        place = self.scratch / name
        files.write_all(place, self.it.texts())
        dataset.write_settings(place, more)
        return place

    def _concept(self) -> None:
        """The concept: its edges, and its cost beside the least one."""
        it, say = self.it, self.verdict.say
        theirs = planning.cost_of(it.lines, it.lines.costs)
        place = self.folder("concept", last_stage="concept")
        answer = program.run(place, "make")
        found = COST.match(answer.line_of("concept"))
        is_kept = found is not None and program.run(place, "check").last == "checked"
        if found is None or not is_kept:
            say(f"concept: not kept: lintim says {answer.last}")
            for load, drives in planning.broken_edges(it.lines, it.loads or [])[:SHOWN]:
                least, most = load.minimal_frequency, load.maximal_frequency
                edges = " and ".join(map(str, self._edges(load.edge_id)))
                say(
                    f"concept: edge {edges} is driven {drives} times, from {least} to {most} wanted"
                )
            self.verdict.broken.append("concept")
            return
        self.verdict.kept.append("concept")
        cost, optimum = millionths(found[2]) or 0, self._least_cost()
        say(f"concept: kept; it costs {number_text(cost)}{least_words(cost, optimum)}")
        if it.has_other_costs:
            say(
                f"concept: by LinTim's costs of lines it costs {number_text(theirs)}; the costs here"
                f" are those of the three keys"
            )

    def _edges(self, edge: int) -> list[int]:
        twin = self.it.network.twins.get(edge)
        return [edge] if twin is None else [edge, twin]

    def _least_cost(self) -> int | None:
        """The least cost of a concept, where `lintim` takes it as proved."""
        place = self.folder("least", last_stage="concept", pin_concept="no")
        found = COST.match(program.run(place, "make").line_of("concept"))
        if found is None or not found[3].startswith("optimal"):
            found = self._proved_by_tree(place)
        return millionths(found[2]) if found and found[3].startswith("optimal") else None

    def _proved_by_tree(self, place: Path) -> re.Match[str] | None:
        """The line of a concept with a tree of the companion, which `lintim` judges."""
        if not (place / LOADS.name).exists() or not (place / LINE_COSTS.name).exists():
            return None
        try:
            problem = line_problem(dataset.read(place))
            half = Deadline(self.deadline.left() / 2)
            best = cheapest(problem, half, self.progress, start=self._start(problem))
            best, nodes = proved(problem, best, self.deadline, self.progress)
        except Refused:
            return None
        if nodes is None:
            return None
        dataset.write(place, PINNED_CONCEPT, concept_rows(problem, best))
        dataset.write(place, PINNED_TREE, list(tree_rows(problem, nodes)))
        dataset.write_settings(place, {"pin_concept": "yes"})
        return COST.match(program.run(place, "make").line_of("concept"))

    def _start(self, problem: LineProblem) -> list[int]:
        often = self.it.lines.frequency or {}
        return [often.get(line.id, 0) for line in problem.lines]

    def _timetable(self) -> bool:
        """Whether the timetable is kept, by the activities here; and by those of LinTim."""
        it, say = self.it, self.verdict.say
        assert it.periodic is not None and it.periodic.times is not None
        place = it.trial(self.scratch / "timetable", last_stage="timetable")
        answer = program.run(place, "make")
        checked = program.run(place, "check").last
        is_kept = answer.line_of("timetable").endswith(", pinned") and checked == "checked"
        period = dataset.read(place).settings.period_length
        here = broken(it.periodic.made, it.periodic.times, period)
        if is_kept:
            say(f"timetable: kept, {len(it.periodic.made)} activities; lintim check says {checked}")
        else:
            say(f"timetable: not kept: lintim says {answer.last}")
            say(
                f"timetable: {len(here)} activities here are broken; the first: "
                + (self._activity(here[0], period) if here else "none")
            )
        if it.periodic.is_weaker:
            say("timetable: LinTim's own activities want more, so this is of a weaker problem")
        theirs = broken(it.periodic.activities, it.periodic.times, period)
        if theirs:
            first = self._activity(theirs[0], period)
            say(
                f"timetable: of LinTim's own activities {len(theirs)} are broken, which nothing"
                f" proves; the first: {first}"
            )
        is_good = is_kept and not theirs
        (self.verdict.kept if is_good else self.verdict.broken).append("timetable")
        return is_kept

    def _activity(self, by: Activity, period: int) -> str:
        """An activity by LinTim's ids, with what it takes."""
        periodic = self.it.periodic
        assert periodic is not None and periodic.times is not None
        is_theirs = by in periodic.activities
        id = by.id if is_theirs else periodic.activity_there.get(by.id)
        name = f"activity {id}" if id is not None else "an activity that LinTim does not have"
        first, second = (periodic.event_there[it] for it in (by.first, by.second))
        minutes = (periodic.times[by.second - 1] - periodic.times[by.first - 1] - by.lower) % period
        return (
            f"{name}, {by.type} from event {first} to event {second}, takes {by.lower + minutes},"
            f" and {by.lower} to {by.upper} are allowed"
        )

    def _schedule(self) -> None:
        """The schedule: its trips, and its cost beside the least one."""
        it, say = self.it, self.verdict.say
        assert it.day is not None
        place = it.trial(self.scratch / "schedule", last_stage="vehicles")
        answer = program.run(place, "make")
        found = COST.match(answer.line_of("vehicles"))
        if found is None:
            say(f"vehicle schedule: not kept: lintim says {answer.last}")
            self._tell_pair(place)
            self.verdict.broken.append("vehicle schedule")
            return
        checked = program.run(place, "check").last
        dataset.write_settings(place, {"pin_vehicles": "no"})
        least = COST.match(program.run(place, "make").line_of("vehicles"))
        cost = millionths(found[2]) or 0
        optimum = millionths(least[2]) if least and least[3] == "optimal" else None
        say(
            f"vehicle schedule: kept; {found[1]} vehicles, it costs {number_text(cost)}"
            f"{least_words(cost, optimum)}; lintim check says {checked}"
        )
        (self.verdict.kept if checked == "checked" else self.verdict.broken).append(
            "vehicle schedule"
        )

    def _tell_pair(self, place: Path) -> None:
        """Tells the first two trips of which one follows too early."""
        day = self.it.day
        assert day is not None
        problem = vehicle_problem(dataset.read(place))
        pair = days.cannot_follow(problem, days.successors(day))
        if pair is not None:
            one, other = (day.trip_there.get(trip, 0) for trip in pair)
            dead = int(problem.dead[pair])
            gap = problem.trips[pair[1]].start_time - problem.trips[pair[0]].end_time
            say = f"the trip of event {other} follows the trip of event {one} after {gap} minutes"
            self.verdict.say(
                f"vehicle schedule: {say}; {dead} of drive and {problem.turnover} of"
                " turnover are wanted"
            )


def least_words(cost: int, least: int | None) -> str:
    """A cost beside the least one, in words."""
    if least is None:
        return "; what the least is was not proved in time"
    if least == cost:
        return ", and that is the least, proved"
    more = (cost - least) / least * 100 if least else 0.0
    return f"; the least is {number_text(least)}, proved: {more:.1f} % more"
