"""Line concepts, timetables and vehicle schedules of the library beside brute force."""

import itertools
import random
from pathlib import Path

import pytest
from hypothesis import given, settings
from hypothesis import strategies as some

from lintim_companion import dataset, formats, program
from lintim_companion.cells import MILLION
from lintim_companion.faults import Refused
from lintim_companion.line_concepts.problem import LineProblem, ProblemEdge, ProblemLine
from lintim_companion.line_concepts.problem import line_problem as read_line_problem
from lintim_companion.line_concepts.proofs import is_proof
from lintim_companion.line_concepts.regions import BoundBy, Empty, Point, Split
from lintim_companion.line_concepts.solve import cheapest as cheapest_concept
from lintim_companion.line_concepts.solve import proved as proved_concept
from lintim_companion.manners import Deadline
from lintim_companion.schedules.problem import FAR, VehicleProblem
from lintim_companion.schedules.solve import cheapest as cheapest_schedule
from lintim_companion.timetables.problem import PeriodicProblem, Span
from lintim_companion.timetables.solve import feasible
from lintim_companion.trial_problems import NO_PROOF, write_line_problem
from searches import QUIET, at_once, time

__all__ = ["at_once"]

# Line concepts


def line_problem(seed: int) -> LineProblem:
    chance = random.Random(seed)
    edges = []
    for edge in range(chance.randint(1, 4)):
        least = chance.randint(0, 3)
        edges.append(ProblemEdge(edge + 1, least, least + chance.randint(0, 2)))
    lines = []
    for line in range(chance.randint(1, 4)):
        on = chance.sample(range(len(edges)), chance.randint(1, len(edges)))
        lines.append(ProblemLine(line + 1, chance.randint(0, 9) * MILLION // 4, on))
    return LineProblem(edges, lines)


def all_concepts(problem: LineProblem) -> list[list[int]]:
    ranges = [range(most + 1) for most in problem.greatest()]
    return [[*often] for often in itertools.product(*ranges) if problem.is_feasible([*often])]


@pytest.mark.parametrize("seed", range(60))
def test_concepts_by_brute_force(seed: int, at_once: None) -> None:
    problem = line_problem(seed)
    costs = [problem.cost(often) for often in all_concepts(problem)]
    handed: list[list[int]] = []
    try:
        found = cheapest_concept(problem, time(), QUIET, handed.append)
    except Refused as why:
        assert not costs and "no concept keeps the bounds" in str(why)
        return
    assert problem.cost(found) == min(costs) and handed[-1] == found
    found, nodes = proved_concept(problem, found, time(), QUIET)
    assert nodes is not None and problem.cost(found) == min(costs)
    assert is_proof(problem, min(costs), nodes)
    assert not is_proof(problem, min(costs), nodes[:-1])
    assert not is_proof(problem, min(costs) + 1, nodes)


def test_a_proof_ends_where_no_time_is_left() -> None:
    problem = LineProblem([ProblemEdge(1, 1, 2)], [ProblemLine(1, 5, [0])])
    assert proved_concept(problem, [1], Deadline(0), QUIET) == ([1], None)


def test_highs_in_a_process_of_its_own() -> None:
    problem = LineProblem([ProblemEdge(1, 1, 2)], [ProblemLine(1, 5, [0])])
    assert cheapest_concept(problem, time(), QUIET) == [1]
    problem = LineProblem([ProblemEdge(1, 3, 4), ProblemEdge(2, 0, 2)], [ProblemLine(1, 5, [0, 1])])
    with pytest.raises(Refused, match="no concept keeps the bounds of all edges, HiGHS says"):
        cheapest_concept(problem, time(), QUIET)


def test_a_dear_concept_gives_way_to_the_cheaper_one_that_its_proof_meets() -> None:
    problem = LineProblem([ProblemEdge(1, 1, 2)], [ProblemLine(1, 5, [0]), ProblemLine(2, 3, [0])])
    handed: list[list[int]] = []
    found, nodes = proved_concept(problem, [2, 0], time(), QUIET, handed.append)
    assert found == [0, 1] == handed[-1] and nodes is not None


def test_leaves_that_settle_nothing_are_no_proof() -> None:
    problem = LineProblem([ProblemEdge(1, 1, 1)], [ProblemLine(1, 5, [0])])
    assert is_proof(problem, 5, [Split(0, 0), Empty(0, 1), Point()])
    assert not is_proof(problem, 5, [Split(0, 0), Empty(0, 0), Point()])
    assert not is_proof(problem, 5, [Split(0, 1), Empty(0, 1), Point()])
    assert not is_proof(problem, 6, [Split(0, 0), Empty(0, 1), Point()])
    assert is_proof(problem, 5, [BoundBy({0: 5})])
    assert not is_proof(problem, 5, [BoundBy({0: 6})])
    assert not is_proof(problem, 5, [BoundBy({0: 4})])


def test_no_time_for_highs(tmp_path: Path, lintim: str) -> None:
    write_line_problem(tmp_path, NO_PROOF)
    program.run(tmp_path, "make")
    problem = read_line_problem(dataset.read(tmp_path))
    with pytest.raises(Refused, match=r"no concept was found in \d+ s; HiGHS says: Time limit"):
        cheapest_concept(problem, Deadline(0), QUIET)
    start = problem.greatest()
    assert cheapest_concept(problem, Deadline(0), QUIET, start=start) is start


# Timetables


@settings(max_examples=80)
@given(seed=some.integers(0, 10**6))
def test_timetables_by_brute_force(seed: int) -> None:
    chance = random.Random(seed)
    period, events = chance.randint(1, 5), chance.randint(1, 4)
    spans = []
    for _ in range(chance.randint(0, 6)):
        lower = chance.randint(0, 7)
        first, second = (chance.randrange(events) for _ in range(2))
        spans.append(Span(first, second, lower, lower + chance.randint(0, 3)))
    problem = PeriodicProblem(period, events, spans)
    times = feasible(problem, time(), QUIET)
    everything = itertools.product(range(period), repeat=events)
    exists = any(problem.first_broken(at) is None for at in everything)
    assert exists is (times is not None)
    assert times is None or problem.first_broken(times) is None


# Vehicle schedules


@pytest.mark.parametrize("seed", range(60))
def test_schedules_by_brute_force(seed: int) -> None:
    chance = random.Random(seed)
    trips = []
    for at in range(chance.randint(0, 5)):
        start = chance.randint(0, 40)
        ends = (
            chance.randint(1, 3),
            start,
            1,
            1,
            chance.randint(1, 3),
            start + chance.randint(1, 9),
        )
        trips.append(formats.Trip(at + 1, 1, *ends, 1))
    reach = {a: {b: abs(a - b) * 4 for b in (1, 2, 3) if {a, b} != {1, 3}} for a in (1, 2, 3)}
    costs = (
        chance.randint(0, 3),
        chance.choice((0, 7, 100)) * MILLION,
        chance.choice((0, 1, 30)) * MILLION,
    )
    problem = VehicleProblem(trips, reach, costs)
    count = len(trips)
    plans = []
    for plan in itertools.product([None, *range(count)], repeat=count):
        links = [(i, j) for i, j in enumerate(plan) if j is not None]
        is_plan = len({j for _, j in links}) == len(links)
        if is_plan and all(problem.may_follow[i, j] for i, j in links):
            plans.append(problem.cost([*plan]))
    successors, u, v = cheapest_schedule(problem)
    assert problem.cost(successors) == min(plans)
    assert min(u + v, default=0) >= 0


def test_stops_that_no_walk_joins_are_far() -> None:
    trip = formats.Trip(1, 1, 1, 0, 1, 1, 2, 5, 1)
    other = trip._replace(start_time=500, end_time=505, start_stop=9)
    problem = VehicleProblem([trip, other], {2: {2: 0}}, (0, 10**12, 10**12))
    assert problem.dead[0, 1] == FAR and cheapest_schedule(problem)[0] == [None, None]
