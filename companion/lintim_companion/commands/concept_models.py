"""`lintim-concept --model direct`, `time` and `both`: line concepts that are good for customers
within a budget of cost, told twice and beside a concept of least cost."""

from argparse import Namespace
from collections.abc import Iterator

from .. import dataset, files, program
from ..cells import MILLION
from ..dataset import Dataset
from ..faults import Refused, WrongWords
from ..formats import LINE_COSTS, LOADS, PINNED_CONCEPT, PINNED_TREE
from ..line_concepts.direct import Best, most_direct
from ..line_concepts.front import Point, picture, table
from ..line_concepts.journeys import Served, served
from ..line_concepts.least_time import Quick, least_time
from ..line_concepts.problem import concept_rows, pinned_concept
from ..line_concepts.programs import NoneInTime
from ..line_concepts.seats import direct_travellers
from ..line_concepts.solve import cheapest, proved
from ..line_concepts.travel import Travel, travel
from ..manners import Deadline, Talk, see_package
from ..registry import MATPLOTLIB, NETWORKX
from ..rows import number_text

PENALTY = 5  # minutes for a change, where nothing is said
BUDGET = 120  # percent of the least cost
POINTS = 6
NEAR = 1e-6  # how far two tellings of one number may be apart, by its size


class Models:
    """A run of one of the models: the dataset, the least cost and the budget."""

    def __init__(self, words: Namespace, talk: Talk) -> None:
        self.words, self.talk = words, talk
        self.deadline = Deadline(words.seconds)
        self.data: Dataset = dataset.read(words.folder)
        program.see_kept(words.folder, LOADS, LINE_COSTS)
        files.see_writable(words.folder, PINNED_CONCEPT.name)
        self.it: Travel = travel(self.data)
        self.penalty = PENALTY if words.change_penalty is None else words.change_penalty
        self.percent = BUDGET if words.budget is None else words.budget
        self.cheapest = self.least_cost()
        self.least = self.it.problem.cost(self.cheapest)
        self.budget = self.least * self.percent // 100

    def write(self, frequencies: list[int]) -> None:
        """Pins a concept, and takes away the tree that stands beside another one."""
        rows = concept_rows(self.it.problem, frequencies)
        with files.undisturbed():
            dataset.remove(self.words.folder, PINNED_TREE)
            self.talk.write(self.words.folder, PINNED_CONCEPT, rows)

    def least_cost(self) -> list[int]:
        """A concept of least cost, or the cheapest that is found, which is pinned."""
        problem, part = self.it.problem, self.words.seconds / 8
        start = pinned_concept(self.data, problem)
        quiet = self.talk.progress
        found = cheapest(problem, Deadline(part), quiet, self.write, start)
        found, nodes = proved(problem, found, Deadline(min(part, 20.0)), quiet)
        self.write(found)
        cost, is_least = problem.cost(found), "proved" if nodes else "not proved"
        size = f"{len(problem.lines)} lines, {len(problem.edges)} edges"
        self.talk.say(f"concept: {size}; least cost {number_text(cost)}, {is_least}")
        return found

    def served(self, frequencies: list[int]) -> Served:
        """What customers have of a concept, by the second evaluation."""
        lines = zip(self.it.problem.lines, frequencies)
        return served(self.data, {line.id for line, often in lines if often}, self.penalty)

    def direct(self, budget: int, deadline: Deadline) -> Best:
        """Most direct travellers within a budget, counted twice."""
        best = most_direct(self.it, budget, deadline, self.talk.progress, self.write)
        lines = self.it.problem.lines
        sat = [(lines[it.ride.line].id, *it.ride[2:], it.customers) for it in best.seated]
        rows = concept_rows(self.it.problem, best.frequencies)
        self.compare(best.direct, direct_travellers(self.data, rows, sat), "customers")
        return best

    def time(self) -> Quick:
        """Least minutes within the budget, told twice."""
        progress = self.talk.progress
        best = least_time(self.it, self.penalty, self.budget, self.deadline, progress, self.write)
        again = self.served(best.frequencies)
        if again.lost:
            raise Refused(f"{again.lost:g} customers have no way in the second evaluation")
        self.compare(best.minutes, again.minutes * again.customers, "minutes")
        return best

    def compare(self, first: float, second: float, unit: str) -> None:
        """Sees that the program and the second evaluation say the same."""
        if abs(first - second) > 0.01 + NEAR * abs(first):
            raise Refused(f"the program says {first:g} {unit}, and a second count {second:g}")

    def tell(self, frequencies: list[int]) -> None:
        """Tells the cost of a concept and what customers have of it."""
        cost, said = self.it.problem.cost(frequencies), self.talk.say
        part = f", {100 * cost / self.least:.1f} % of the least" if self.least else ""
        within = f"{number_text(self.budget)}, {self.percent} %"
        said(f"concept: cost {number_text(cost)}{part}; the budget is {within}")
        it = self.served(frequencies)
        shares = [it.share(part) for part in (it.direct, it.once, it.often)]
        said(f"concept: ways: {shares[0]} direct, {shares[1]} one change, {shares[2]} more")
        with_penalty = f"{it.minutes:.2f} with {self.penalty} for each change"
        said(f"concept: ways: {it.ride_minutes:.2f} minutes in vehicles, {with_penalty}")
        if it.lost:
            said(f"concept: ways: {it.share(it.lost)} of the customers have none")

    def end(self) -> int:
        """The last lines."""
        self.talk.say(f"concept: written to {PINNED_CONCEPT.name}")
        if self.data.settings.pin_concept == "no":
            self.talk.say("concept: to use it, add the row `pin_concept; yes` to basis/Config.cnf")
        return 0


def how_good(is_best: bool, bound: str) -> str:
    """Whether a value is best, in words."""
    return "optimal" if is_best else f"not proved; {bound}"


def run(words: Namespace, talk: Talk) -> int:
    """Finds a concept by a model, pins it, and tells what customers have of it."""
    see_package(NETWORKX)
    if (words.table or words.picture) and words.model != "both":
        raise WrongWords("--table and --picture are for --model both")
    if words.picture:
        see_package(MATPLOTLIB)
        if words.picture.suffix not in (".svg", ".png"):
            raise WrongWords("--picture wants a file .svg or .png")
    if words.model == "both":
        return front(words, talk)
    it = Models(words, talk)
    try:
        it.tell(direct(it) if words.model == "direct" else time(it))
    except NoneInTime as why:
        talk.say(f"concept: {words.model}: {why}; the concept of least cost stays")
        it.tell(it.cheapest)
    return it.end()


def direct(it: Models) -> list[int]:
    """A concept with most direct travellers."""
    best = it.direct(it.budget, it.deadline)
    counts = f"{best.direct:.10g} of {it.it.total:.10g} customers"
    says = how_good(best.is_best, f"no concept has more than {best.bound:.10g}")
    it.talk.say(f"concept: direct: {counts} with a seat, counted twice: {says}")
    return best.frequencies


def time(it: Models) -> list[int]:
    """A concept of least minutes."""
    quick = it.time()
    bound = f"none is below {quick.bound:.10g}"
    minutes = f"{quick.minutes:.10g} minutes of {it.it.total:.10g} customers"
    it.talk.say(f"concept: time: found by {quick.way}")
    it.talk.say(f"concept: time: {minutes}, counted twice: {how_good(quick.is_best, bound)}")
    return quick.frequencies


def front(words: Namespace, talk: Talk) -> int:
    """Most direct travellers for budgets from the least cost on: a table and a picture."""
    places = [None if it is None else files.place_of(it) for it in (words.table, words.picture)]
    it = Models(words, talk)
    points = [*points_of(it, POINTS if words.points is None else words.points)]
    it.tell(points[-1].frequencies if points else it.cheapest)
    if places[0] is not None:
        files.write_bytes(places[0].parent, places[0].name, table(points, it.it.total))
        talk.say(f"concept: front: written to {words.table}")
    if places[1] is not None:
        drawn = picture(points, it.it.total, places[1].suffix)
        files.write_bytes(places[1].parent, places[1].name, drawn)
        talk.say(f"concept: front: written to {words.picture}")
    return it.end()


def points_of(it: Models, count: int) -> Iterator[Point]:
    """The best that is found for each budget; each gets a part of the time that is left."""
    problem, total = it.it.problem, it.it.total
    for at in range(count):
        budget = it.least + (it.budget - it.least) * at // max(1, count - 1)
        try:
            best = it.direct(budget, Deadline(it.deadline.left() / (count - at)))
        except NoneInTime as why:
            it.talk.say(f"concept: front: budget {number_text(budget)}: {why}")
            continue
        cost = problem.cost(best.frequencies)
        counts = f"{best.direct:.10g} of {total:.10g} direct"
        says = how_good(best.is_best, f"at most {best.bound:.10g}")
        told = f"budget {number_text(budget)}: cost {number_text(cost)}"
        it.talk.say(f"concept: front: {told}, {counts}: {says}")
        numbers = budget / MILLION, cost / MILLION, best.direct, best.bound, best.is_best
        yield Point(*numbers, it.served(best.frequencies), best.frequencies)
