"""Vehicles that stay with a line, and what schedules come to."""

import itertools
import random
from pathlib import Path

import networkx
import pytest

from commands import made, run
from conftest import Folders
from lintim_companion import dataset, formats, program
from lintim_companion.cells import MILLION
from lintim_companion.formats import Trip
from lintim_companion.schedules.by_line import line_based
from lintim_companion.schedules.measures import Measures, YearCosts, measures, read_costs
from lintim_companion.schedules.problem import VehicleProblem, schedule_rows, vehicle_problem
from lintim_companion.schedules.solve import cheapest

pytestmark = pytest.mark.usefixtures("lintim")
PRICES = "vehicle_of_a_year; 40000\nkilometre; 1.5\ndriver_hour; 40\ndays; 300\n"


def problem_of(seed: int) -> VehicleProblem:
    chance = random.Random(seed)
    trips = []
    for at in range(chance.randint(0, 12)):
        start = chance.randint(0, 60)
        ends = (at * 2 + 1, 1, chance.randint(1, 3), start)
        there = (at * 2 + 2, 2, chance.randint(1, 3), start + chance.randint(1, 15))
        trips.append(Trip(*ends, *there, chance.randint(1, 3)))
    far = {a: {b: 4 * abs(a - b) for b in range(1, 4)} for a in range(1, 4)}
    costs = (chance.randint(0, 3), chance.randint(0, 9) * MILLION, chance.randint(0, 2) * MILLION)
    return VehicleProblem(trips, far, costs)


@pytest.mark.parametrize("seed", range(60))
def test_line_based_is_a_matching_line_by_line(seed: int) -> None:
    problem = problem_of(seed)
    successors = line_based(problem)
    cost = 0
    for line in {trip.line for trip in problem.trips}:
        own = [at for at, trip in enumerate(problem.trips) if trip.line == line]
        graph = networkx.Graph()
        for i, j in itertools.permutations(own, 2):
            one, other = problem.trips[i], problem.trips[j]
            dead = 4 * abs(one.end_stop - other.start_stop)
            gain = problem.vehicle - dead * problem.empty
            if one.end_time + problem.turnover + dead <= other.start_time and gain > 0:
                graph.add_edge(("from", i), ("to", j), weight=gain)
        pairs = networkx.max_weight_matching(graph)
        cost += problem.vehicle * len(own) - sum(graph.edges[pair]["weight"] for pair in pairs)
    assert problem.cost(successors) == cost
    for at, after in enumerate(successors):
        assert after is None or problem.trips[at].line == problem.trips[after].line
    assert problem.cost(cheapest(problem)[0]) <= cost


def test_measures_by_hand(example: Folders) -> None:
    """Two lines of three stops: trips over both edges and over one."""
    folder = made(example("three-stops"))
    data = dataset.read(folder)
    it = measures(data, data[formats.SCHEDULE])
    trips = data[formats.TRIPS].rows
    of_line = {row.line_id: row.length for row in data[formats.LINE_COSTS]}
    assert it.vehicles == 4 and it.empty_length == 0
    assert it.length == sum(of_line[trip.line] for trip in trips)
    assert it.trip_minutes == sum(trip.end_time - trip.start_time for trip in trips)
    assert it.minutes >= it.trip_minutes


def test_money_by_hand() -> None:
    costs = YearCosts(*(it * MILLION for it in (1000, 2, 30, 10, 1)))
    it = Measures(3, 40 * MILLION, 5 * MILLION, 90, 60)
    assert it.money(costs) == (3 * 1000 + 10 * (45 * 2 + 45)) * MILLION


def test_line_based_is_taken(example: Folders, tmp_path: Path) -> None:
    folder = made(example("market-town"))
    (tmp_path / "costs").write_text(PRICES)
    assert run("lintim-schedule", folder).status == 0
    ended = run("lintim-schedule", folder, "--line-based", "--costs", tmp_path / "costs")
    assert (ended.status, ended.err) == (0, [])
    told = {line.split("; ")[0]: line.split("; ")[1:] for line in ended.out[1:5]}
    assert list(told) == [
        f"schedule: {name}" for name in ("schedule", "least cost", "line-based", "as it stands")
    ]
    assert told["schedule: schedule"][-1] == "money of a year"
    assert told["schedule: least cost"][1] == told["schedule: as it stands"][1]
    assert not (folder / formats.PINNED_POTENTIALS.name).exists()
    dataset.write_settings(folder, {"pin_vehicles": "yes"})
    answer = program.run(folder, "make")
    vehicles, cost = told["schedule: line-based"][:2]
    assert f"{vehicles} vehicles, cost {cost}" in answer.line_of("vehicles")
    assert program.run(folder, "check").last == "checked"
    problem = vehicle_problem(dataset.read(folder))
    rows = [*schedule_rows(problem, line_based(problem))]
    lines: dict[int, set[int]] = {}
    for row in rows:
        if row.type == "TRIP":
            lines.setdefault(row.vehicle, set()).add(row.line)
    assert all(len(it) == 1 for it in lines.values())


@pytest.mark.parametrize(
    "text, says",
    (
        (PRICES + "horse; 3\n", "row 5: unknown key (horse, wanted vehicle_of_a_year"),
        (PRICES + "days; 3\n", "row 5: days comes twice"),
        ("kilometre; 1\n", "has no row for vehicle_of_a_year"),
        ("kilometre; x\n", "row 1: column 2 is not a number"),
        (None, "is missing"),
    ),
)
def test_costs_that_are_none(text: str | None, says: str, example: Folders, tmp_path: Path) -> None:
    if text is not None:
        (tmp_path / "costs").write_text(text)
    ended = run("lintim-schedule", example("market-town"), "--costs", tmp_path / "costs")
    assert ended.status == 1 and says in ended.one_line()


def test_defaults_of_costs(tmp_path: Path) -> None:
    (tmp_path / "costs").write_text(PRICES.replace("days; 300\n", ""))
    costs = read_costs(tmp_path / "costs")
    assert (costs.days, costs.kilometres_of_a_unit) == (250 * MILLION, MILLION)
