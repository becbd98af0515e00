"""Trials of the commands that make plans: each works over a dataset, `lintim` takes and judges what
it wrote, and what both say is told beside what `lintim` finds alone."""

import random
import subprocess
import time
from collections.abc import Callable, Iterator
from pathlib import Path
from typing import NamedTuple

from . import dataset, demos, formats, program
from .formats import EventDelay
from .hand import copy_hand_files
from .surroundings import python
from .trial_problems import TRIAL_PROBLEMS, write_line_problem

COMPANION = Path(__file__).resolve().parents[1]
TOWN = COMPANION / "tests/data/town"
PENALTIES = (3, 10, 30)
GREATEST_BUDGET = 20_000  # of the search for a waiting decision that is built in
PINNED = {
    "concept": ("pin_concept", "concept"),
    "timetable": ("pin_timetable", "timetable"),
    "schedule": ("pin_vehicles", "vehicles"),
}
Say = Callable[[str], None]


class Command(NamedTuple):
    """How a command ended: its exit status, its lines, and the seconds that it took."""

    status: int
    lines: list[str]
    seconds: float


def run(name: str, *words: object) -> Command:
    """Runs a command of the package."""
    begun = time.monotonic()
    path = str(COMPANION / f"bin/lintim-{name}")
    ended = subprocess.run(
        python(path, *map(str, words)),
        stdout=subprocess.PIPE,
        stderr=subprocess.STDOUT,
        text=True,
    )
    return Command(ended.returncode, ended.stdout.splitlines(), time.monotonic() - begun)


def see_pinned(folder: Path, name: str, seconds: int, say: Say) -> bool:
    """Whether `lintim` takes the plan that a command writes, and finds no fault in it."""
    key, stage = PINNED[name]
    words = [] if name == "schedule" else ["--seconds", seconds]
    say(f"    alone:   {program.run(folder, 'make').line_of(stage)}")
    ended = run(name, folder, *words)
    for line in ended.lines:
        if "written to" not in line and "to use it" not in line:
            say(f"    command: {line}")
    dataset.write_settings(folder, {key: "yes"})
    line = program.run(folder, "make").line_of(stage)
    verdict = program.run(folder, "check").last
    say(f"    pinned:  {line}; {verdict}; {ended.seconds:.1f} s in all")
    return ended.status == 0 and line.endswith(", pinned") and verdict == "checked"


class WaitCase(NamedTuple):
    """A waiting decision by the command and by the search that is built in, and what the plain
    rules cost by the runs of `lintim make`."""

    cost: int
    nodes: int
    seconds: float
    verdict: str
    built_in: int | None
    is_marked: bool
    rules: tuple[int, ...]

    @property
    def is_good(self) -> bool:
        """Whether nothing that is known is better, and `lintim` finds no fault."""
        others = [*self.rules] + ([] if self.built_in is None else [self.built_in])
        is_best = self.cost <= min(others)
        return (
            self.verdict == "checked"
            and is_best
            and not (self.is_marked and self.cost != self.built_in)
        )

    def line(self) -> str:
        """The case in one line."""
        proof = f"a tree of {self.nodes} nodes" if self.nodes else "no tree"
        mark = "proved" if self.is_marked else "not proved"
        alone = f"built-in {self.built_in}, {mark}"
        rules = ", ".join(map(str, self.rules))
        return f"{self.cost}, {proof}, {self.seconds:.1f} s; {alone}; rules {rules}; {self.verdict}"


def rule_costs(folder: Path, penalties: tuple[int, ...]) -> dict[int, tuple[int, ...]]:
    """What the rules `none`, 3, 5 and `all` cost at each penalty, by the statistic of `lintim`."""
    config = (folder / formats.CONFIG).read_bytes()
    found = []
    rules: tuple[int | str, ...] = ("none", 3, 5, "all")
    for rule in rules:
        dataset.write_settings(folder, {"dm_wait": rule})
        program.run(folder, "make")
        statistic = dict(dataset.read_file(folder, formats.STATISTIC).rows)
        late, missed = (statistic[f"dm_{word}"] for word in ("total_delay", "missed_changes"))
        found.append((late // 10**6, missed // 10**6))
    (folder / formats.CONFIG).write_bytes(config)
    program.run(folder, "make")
    return {at: tuple(late + at * missed for late, missed in found) for at in penalties}


def saved(text: str) -> tuple[int | None, int]:
    """The cost and the number of nodes of a text of a waiting decision."""
    rows = [line.split("; ") for line in text.splitlines()]
    cost = next((int(row[2]) for row in rows if row[0] == "cost"), None)
    return cost, sum(row[0] in ("split", "leaf") for row in rows)


def wait_cases(folder: Path, penalties: tuple[int, ...] = PENALTIES) -> dict[int, WaitCase]:
    """The day of a folder at each penalty."""
    rules = rule_costs(folder, penalties)
    found = {}
    for penalty in penalties:
        (folder / formats.WAITS.name).unlink(missing_ok=True)
        ended = run("waits", folder, penalty)
        cost, nodes = saved((folder / formats.WAITS.name).read_text())
        verdict = program.run(folder, "check-waits", str(penalty)).last
        built_in, marked = saved(
            program.run(folder, "waits", str(penalty), str(GREATEST_BUDGET)).out
        )
        found[penalty] = WaitCase(
            cost or 0, nodes, ended.seconds, verdict, built_in, marked > 0, rules[penalty]
        )
    return found


def write_delays(folder: Path, seed: int, least: int, most: int) -> None:
    """Delays of 2 to 20 minutes to so many events of the day, by a number."""
    chance = random.Random(seed)
    events = len(dataset.read_file(folder, formats.DAY_EVENTS))
    count = chance.randint(least, most)
    late = sorted(chance.sample(range(1, events + 1), count))
    rows = [EventDelay(event, chance.randint(2, 20)) for event in late]
    dataset.write(folder, formats.EVENT_DELAYS, rows)
    program.run(folder, "make")


def datasets(place: Path) -> Iterator[tuple[str, Path]]:
    """The examples and two demos, each in a folder of its own, with its plans made."""
    for name in ("three-stops", "market-town"):
        copy_hand_files(program.CHECKOUT / "examples" / name, place / name)
        yield name, place / name
    for size in (5, 8):
        demos.write_demo(place / f"demo{size}", size)
        yield f"demo {size}", place / f"demo{size}"


def try_plans(place: Path, seconds: int, only: str, say: Say) -> bool:
    """The commands over the examples and demos, waiting decisions first: the other plans make
    another day."""
    is_good = True
    for name, folder in datasets(place):
        if only in f"{name}, waits":
            say(f"{name}, waits")
            is_good &= see_waits(folder, name.startswith("demo"), say)
        for command in PINNED:
            if only in f"{name}, {command}":
                say(f"{name}, {command}")
                is_good &= see_pinned(folder, command, seconds, say)
    return is_good


def see_waits(folder: Path, has_no_delays: bool, say: Say) -> bool:
    """Whether no decision that is known is better than those of `lintim-waits`, on the day of a
    folder; where it has no delays, ten are made, and taken away again."""
    program.run(folder, "make")
    if has_no_delays:
        write_delays(folder, 8, 10, 10)
    cases = wait_cases(folder)
    for penalty, case in cases.items():
        say(f"    at {penalty}: {case.line()}")
    if has_no_delays:
        dataset.remove(folder, formats.EVENT_DELAYS)
    return all(case.is_good for case in cases.values())


def try_lines(place: Path, seconds: int, only: str, say: Say) -> bool:
    """`lintim-concept` over line problems that the search of `lintim` leaves open."""
    is_good = True
    for number, problem in enumerate(TRIAL_PROBLEMS, 1):
        name = f"line problem {number}: {problem.name}"
        if only in name:
            say(name)
            folder = place / f"lines{number}"
            write_line_problem(folder, problem)
            is_good &= see_pinned(folder, "concept", seconds, say)
    return is_good


def town_cases(place: Path, seeds: range) -> Iterator[tuple[int, int, WaitCase]]:
    """Days with 1 to 4 delays in a town of 12 stops: the number, the penalty, and the case."""
    folder = place / "town"
    copy_hand_files(TOWN, folder)
    program.run(folder, "make")
    for seed in seeds:
        write_delays(folder, seed, 1, 4)
        for penalty, case in wait_cases(folder).items():
            yield seed, penalty, case


def try_town(place: Path, only: str, say: Say) -> bool:
    """`lintim-waits` over 120 days of a town."""
    if only not in "the town, waits":
        return True
    cases = []
    for seed, penalty, case in town_cases(place, range(40)):
        say(f"the town, waits: number {seed} at {penalty}: {case.line()}")
        cases.append(case)
    for line in summary(cases):
        say(line)
    return all(case.is_good for case in cases)


def summary(cases: list[WaitCase]) -> Iterator[str]:
    """What the cases come to."""
    opened = [case for case in cases if not case.is_marked and case.built_in is not None]
    worse = [case for case in opened if (case.built_in or 0) > case.cost]
    by_rule = [case for case in opened if (case.built_in or 0) > min(case.rules)]
    ratios = [(case.built_in or 0) / max(1, case.cost) for case in worse] or [1.0]
    times = sorted(case.seconds for case in cases)
    yield f"{len(cases)} days: {sum(case.nodes > 0 for case in cases)} proved by a tree"
    yield f"  seconds: {times[len(times) // 2]:.1f} in the middle, {times[-1]:.1f} at most"
    yield f"  built-in search: not proved {len(opened)}, worse than the best {len(worse)}"
    yield f"  of these: {sum(ratios) / len(ratios):.1f} times in the mean, {max(ratios):.1f} at most"
    yield f"  worse than the best of the rules none, 3, 5 and all: {len(by_rule)}"
