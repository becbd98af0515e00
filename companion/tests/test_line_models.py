"""Line concepts for customers beside brute force: all concepts of small pools, for each model."""

import itertools
import random
from collections import defaultdict
from pathlib import Path
from typing import NamedTuple

import networkx
import numpy
import pytest
from scipy.optimize import linprog

from commands import made, run
from conftest import Folders
from lintim_companion import dataset, formats, generators, program
from lintim_companion.faults import Refused
from lintim_companion.line_concepts.direct import most_direct
from lintim_companion.line_concepts.journeys import served
from lintim_companion.line_concepts.least_time import least_time
from lintim_companion.line_concepts.problem import LineProblem, concept_rows
from lintim_companion.line_concepts.seats import direct_travellers
from lintim_companion.line_concepts.travel import Travel, travel
from searches import QUIET, at_once, time

__all__ = ["at_once"]
pytestmark = pytest.mark.usefixtures("lintim")


class Town(NamedTuple):
    """A small town, and all its concepts, with a budget between the least cost and the greatest."""

    data: dataset.Dataset
    it: Travel
    concepts: list[list[int]]
    budget: int


def small_town(folder: Path, seed: int) -> Town | None:
    """A town of up to eight lines, each driven at most three times; none where no concept is
    feasible."""
    chance = random.Random(seed)
    network = generators.planar(chance.randint(4, 7), seed)
    lines = generators.lines_of(network, chance.randint(3, 7), seed)[:8]
    demand = generators.gravity(network, 300, seed)
    settings: dict[str, int | str] = {"gen_passengers_per_vehicle": 60, "load_spread": 1}
    generators.write(folder, network, lines, demand, {"load_source": "file", **settings})
    used = {edge for line in lines for edge in line}
    loads = [
        formats.Load(at, 0, 1 if at in used else 0, chance.randint(2, 3))
        for at in range(1, len(network.edges) + 1)
    ]
    dataset.write(folder, formats.GIVEN_LOADS, loads)
    program.run(folder, "make")
    data = dataset.read(folder)
    it = travel(data)
    concepts = all_concepts(it.problem)
    if not concepts:
        return None
    costs = [it.problem.cost(often) for often in concepts]
    return Town(data, it, concepts, (min(costs) + max(costs)) // 2)


def all_concepts(problem: LineProblem) -> list[list[int]]:
    ranges = [range(min(3, most) + 1) for most in problem.greatest()]
    every = numpy.array([*itertools.product(*ranges)])
    sums = every @ problem.matrix.T
    least, most = (numpy.array([edge[at] for edge in problem.edges]) for at in (1, 2))
    kept = ((sums >= least) & (sums <= most)).all(axis=1)
    return [[*map(int, often)] for often in every[kept]]


def greatest_alone(concepts: list[list[int]]) -> list[list[int]]:
    """Concepts beside which no other one drives each line as often or more: these have most."""
    every = numpy.array(concepts)
    return [it for it in concepts if ((every >= it).all(axis=1)).sum() == 1]


def seats_by_trial(town: Town, often: list[int]) -> float:
    """The most direct customers of a concept, by a program of its own over pairs and lines."""
    edges = {edge.edge_id: edge for edge in town.data[formats.EDGES]}
    network = networkx.Graph()
    network.add_weighted_edges_from(
        (edge.left_stop, edge.right_stop, edge.lower_bound) for edge in edges.values()
    )
    wanted = {
        (row.from_stop, row.to_stop): row.customers / 10**6 for row in town.data[formats.DEMAND]
    }
    of_line = defaultdict(list)
    for row in town.data[formats.POOL]:
        of_line[row.line_id].append(edges[row.edge_id])
    rows, most, columns = [], [*wanted.values()], 0
    pairs: dict[tuple[int, int], list[int]] = {pair: [] for pair in wanted}
    over: dict[tuple[int, int, int], list[int]] = defaultdict(list)
    for place, line in enumerate(town.it.problem.lines):
        ways = networkx.Graph()
        for at, edge in enumerate(of_line[line.id]):
            ways.add_edge(edge.left_stop, edge.right_stop, at=at, minutes=edge.lower_bound)
        for pair in wanted:
            if not often[place] or not (pair[0] in ways and pair[1] in ways):
                continue
            path = networkx.shortest_path(ways, *pair, weight="minutes")
            steps = [*itertools.pairwise(path)]
            minutes = sum(ways.edges[step]["minutes"] for step in steps)
            if minutes == networkx.shortest_path_length(network, *pair, weight="weight"):
                pairs[pair].append(columns)
                for a, b in steps:
                    over[place, a, b].append(columns)
                columns += 1
    for some in (*pairs.values(), *over.values()):
        rows.append([float(at in some) for at in range(columns)])
    most += [60.0 * often[place] for place, _, _ in over]
    if not columns:
        return 0.0
    got = linprog([-1.0] * columns, A_ub=rows, b_ub=most, method="highs")
    return -float(got.fun)


@pytest.mark.parametrize("seed", range(24))
def test_models_by_brute_force(seed: int, tmp_path: Path, at_once: None) -> None:
    town = small_town(tmp_path, seed)
    if town is None:
        return
    it, penalty = town.it, random.Random(seed).choice((0, 3, 8))
    within = [some for some in town.concepts if it.problem.cost(some) <= town.budget]
    direct = max(seats_by_trial(town, often) for often in greatest_alone(within))
    best = most_direct(it, town.budget, time(), QUIET)
    assert best.is_best and best.direct == pytest.approx(direct, abs=1e-4)
    assert it.problem.cost(best.frequencies) <= town.budget and best.frequencies in within
    lines = it.problem.lines
    sat = [(lines[one.ride.line].id, *one.ride[2:], one.customers) for one in best.seated]
    rows = concept_rows(it.problem, best.frequencies)
    assert direct_travellers(town.data, rows, sat) == pytest.approx(direct, abs=1e-4)
    sets = {tuple(line.id for line, often in zip(lines, some) if often) for some in within}
    least = min(minutes_by_trial(town, set(driven), penalty) for driven in sets)
    for by_columns in (False, True):
        quick = least_time(it, penalty, town.budget, time(), QUIET, by_columns=by_columns)
        assert quick.frequencies in within
        assert quick.bound <= least + 1e-3
        assert quick.minutes >= least - 1e-3
        if not by_columns:
            assert quick.is_best and quick.minutes == pytest.approx(least, abs=1e-3)
        driven = {line.id for line, often in zip(lines, quick.frequencies) if often}
        again = served(town.data, driven, penalty)
        assert again.minutes * again.customers == pytest.approx(quick.minutes, abs=1e-3)


def minutes_by_trial(town: Town, driven: set[int], penalty: int) -> float:
    """The minutes of all customers, by networkx over stops, each with the line on which one is."""
    edges = {edge.edge_id: edge for edge in town.data[formats.EDGES]}
    network = networkx.Graph()
    for row in town.data[formats.POOL]:
        if row.line_id in driven:
            edge = edges[row.edge_id]
            two = (edge.left_stop, row.line_id), (edge.right_stop, row.line_id)
            network.add_edge(*two, minutes=edge.lower_bound)
            for stop, line in two:
                network.add_edge(stop, (stop, line), minutes=penalty / 2)
    found = 0.0
    for asked in town.data[formats.DEMAND]:
        ends = asked.from_stop, asked.to_stop
        minutes = networkx.shortest_path_length(network, *ends, weight="minutes") - penalty
        found += asked.customers / 10**6 * minutes
    return found


def test_a_seat_is_not_given_twice(example: Folders) -> None:
    data = dataset.read(made(example("market-town")))
    it = travel(data)
    concept = [row._replace(frequency=1) for row in data[formats.CONCEPT]]
    line = it.problem.lines[0].id
    with pytest.raises(Refused, match="fewer seats"):
        direct_travellers(data, concept, [(line, 0, 1, 61.0)])
    with pytest.raises(Refused, match="more customers sit"):
        direct_travellers(data, concept, [(line, 0, 1, 60.0)])


@pytest.mark.parametrize("model", ("direct", "time", "both"))
def test_what_is_pinned_is_taken(model: str, example: Folders) -> None:
    folder = made(example("market-town"))
    before = {path for path in folder.rglob("*")}
    ended = run("lintim-concept", folder, "--model", model, "--seconds", "20")
    assert (ended.status, ended.err) == (0, [])
    assert any("counted twice: optimal" in line or ": optimal" in line for line in ended.out)
    new = {str(path.relative_to(folder)) for path in {*folder.rglob("*")} - before}
    assert new == {"pinned", "pinned/Line-Concept.lin"}
    dataset.write_settings(folder, {"pin_concept": "yes"})
    answer = program.run(folder, "make")
    assert answer.status == 0 and "pinned" in answer.line_of("concept")
    assert program.run(folder, "check").last == "checked"


def test_the_front_has_a_table_and_a_picture(example: Folders, tmp_path: Path) -> None:
    folder = made(example("market-town"))
    words = ("--model", "both", "--points", "3", "--budget", "150")
    out = ("--table", tmp_path / "front.csv", "--picture", tmp_path / "front.svg")
    ended = run("lintim-concept", folder, *words, *out)
    assert ended.status == 0, ended.err
    rows = (tmp_path / "front.csv").read_text().splitlines()
    assert rows[0].startswith("budget,cost,direct") and len(rows) == 4
    direct = [float(row.split(",")[2]) for row in rows[1:]]
    assert direct == sorted(direct)
    assert (tmp_path / "front.svg").read_text().startswith("<?xml")


@pytest.mark.parametrize(
    "words, says",
    (
        (("--model", "fast"), "--model is fast, wanted cost, direct, time, both"),
        (("--budget", "120"), "--budget is for the other models"),
        (("--model", "direct", "--table", "x.csv"), "--table and --picture are for --model both"),
        (("--model", "both", "--picture", "x.pdf"), "--picture wants a file .svg or .png"),
    ),
)
def test_wrong_words(words: tuple[str, ...], says: str, example: Folders) -> None:
    ended = run("lintim-concept", example("market-town"), *words)
    assert ended.status == 2 and says in ended.one_line()


def test_without_demand_it_is_refused(example: Folders) -> None:
    ended = run("lintim-concept", made(example("three-stops")), "--model", "direct")
    assert ended.status == 1 and "basis/OD.giv has no demand" in ended.one_line()
