"""Timetables that are good for passengers."""

import itertools
import random
from pathlib import Path

import hypothesis.strategies as some
import numpy
import pytest
from hypothesis import given, settings

import seeded
from commands import made, run
from conftest import Folders
from lintim_companion import dataset, formats, highs, program
from lintim_companion.manners import Deadline, Progress
from lintim_companion.timetables.improve import Search
from lintim_companion.timetables.moves import BROKEN, Costs, sets_of_events
from lintim_companion.timetables.network import (
    PeriodicNetwork,
    Real,
    Whole,
    periodic_network,
    whole,
)
from lintim_companion.timetables.objective import OwnWeights
from lintim_companion.timetables.routes import Router, demand_of
from lintim_companion.timetables.slack_program import slack_program

QUIET = Progress("test", None)


def small_network(chance: random.Random) -> tuple[PeriodicNetwork, Real]:
    """A network of up to five events with any activities, and weights."""
    period, events, count = chance.randint(2, 6), chance.randint(1, 5), chance.randint(0, 7)
    lower = [chance.randint(0, 7) for _ in range(count)]
    ends = [[chance.randrange(events) for _ in range(count)] for _ in range(2)]
    zeros = numpy.zeros(events, dtype=numpy.int64)
    network = PeriodicNetwork(
        period, zeros, whole(range(events)), zeros == 1, whole(range(events)), whole(range(events)),
        zeros, whole(ends[0]), whole(ends[1]), whole(lower),
        whole([it + chance.choice((1, 2, period - 1, period + 3)) for it in lower]),
        ["change"] * count,
    )  # fmt: skip
    return network, numpy.array([float(chance.choice((0, 1, 2, 5))) for _ in range(count)])


def least_by_trial(network: PeriodicNetwork, weights: Real) -> float | None:
    """The least weighted slack of all timetables, by trying each."""
    all_times = map(whole, itertools.product(range(network.period), repeat=network.events))
    kept = [float(weights @ network.slack(it)) for it in all_times if network.is_kept(it)]
    return min(kept, default=None)


@settings(max_examples=40)
@given(seed=some.integers(0, 10**6))
def test_least_slack_by_brute_force(seed: int) -> None:
    network, weights = small_network(random.Random(seed))
    least = least_by_trial(network, weights)
    made_of = slack_program(network, weights)
    loops = network.first == network.second
    beside = float(weights[loops] @ network.slack(numpy.zeros(network.events, int))[loops])
    if not len(made_of.activities):
        return
    answers: list[highs.Answer] = []
    answer = highs.solve(made_of.mixed, Deadline(20), QUIET, answers.append)
    if least is None:
        assert made_of.times(answer) is None
        return
    times = made_of.times(answer)
    assert times is not None and answer.is_best
    assert float(weights @ network.slack(times)) == pytest.approx(least)
    assert answer.bound is None or answer.bound <= least - beside + 1e-6


@settings(max_examples=60)
@given(seed=some.integers(0, 10**6))
def test_a_search_stays_within_bounds_and_gets_no_worse(seed: int) -> None:
    chance = random.Random(seed)
    network, weights = small_network(chance)
    all_times = map(whole, itertools.product(range(network.period), repeat=network.events))
    kept = [it for it in all_times if network.is_kept(it)]
    if kept:
        start = chance.choice(kept)
        found: list[Whole] = []
        objective = OwnWeights(network, weights)
        best = Search(network, objective, Deadline(0.2), QUIET, found.append).run(start)
        assert network.is_kept(best) and all(network.is_kept(it) for it in found)
        assert objective.value(best) <= objective.value(start)


@settings(max_examples=60)
@given(seed=some.integers(0, 10**6))
def test_what_a_shift_costs_is_what_times_cost_after_it(seed: int) -> None:
    chance = random.Random(seed)
    network, weights = small_network(chance)
    costs = Costs(network, weights, sets_of_events(network))
    times = whole([chance.randrange(network.period) for _ in range(network.events)])
    before = costs.total(times)
    for move in costs.moves:
        by_shift = costs.by_shift(move, costs.slack(times))
        for by in range(network.period):
            after = times.copy()
            after[move.events] = (after[move.events] + by) % network.period
            change = costs.total(after) - before
            assert by_shift[by] - by_shift[0] == pytest.approx(change, abs=BROKEN * 1e-9)


def mean_minutes(network: PeriodicNetwork, router: Router, times: Whole, penalty: int) -> float:
    """The mean minutes by plain search for each row of demand, minute by minute."""
    demand, total = router.demand, 0.0
    follows: dict[int, list[tuple[int, int]]] = {}
    for place, kind in enumerate(network.kind):
        if kind in ("drive", "wait", "change"):
            minutes = int(network.tension(times)[place]) + penalty * (kind == "change")
            first, second = int(network.first[place]), int(network.second[place])
            follows.setdefault(first, []).append((second, minutes))
    routed = 0.0
    for origin, goal, customers in zip(demand.origin, demand.destination, demand.customers):
        arrivals = []
        for minute in range(network.period):
            leave = numpy.flatnonzero(~network.is_arrival & (network.stop == origin))
            reach = {int(it): int((times[it] - minute) % network.period) for it in leave}
            while True:
                better = {
                    after: reach[event] + minutes
                    for event in reach
                    for after, minutes in follows.get(event, [])
                    if reach[event] + minutes < reach.get(after, 10**9)
                }
                if not better:
                    break
                for after in better:
                    ways = [
                        reach[event] + minutes
                        for event in reach
                        for it, minutes in follows.get(event, [])
                        if it == after
                    ]
                    reach[after] = min(ways)
            ends = numpy.flatnonzero(network.is_arrival & (network.stop == goal))
            arrivals.append(min((reach[int(it)] for it in ends if int(it) in reach), default=None))
        if None not in arrivals:
            total += float(customers) * sum(it for it in arrivals if it is not None) / len(arrivals)
            routed += float(customers)
    return total / routed if routed else 0.0


@pytest.mark.parametrize("penalty", [0, 7])
def test_mean_minutes_by_plain_search(penalty: int, example: Folders, lintim: str) -> None:
    data = dataset.read(made(example("market-town")))
    network = periodic_network(data)
    router = Router(network, demand_of(data), penalty)
    times = whole([row.time for row in data[formats.TIMETABLE]])
    mean = mean_minutes(network, router, times, penalty)
    assert router.mean(times) == pytest.approx(mean)
    routing = router.route(times)
    told = routing.minutes + penalty * routing.changes
    assert told == pytest.approx(mean, abs=1e-3)


def is_good(seed: int, folder: Path) -> bool:
    """Whether a good timetable was made over a seeded dataset; `lintim` has to take it, and its
    sums have to be those that are told."""
    seeded.write(folder, seeded.dataset(seed))
    if program.run(folder, "make").status != 0:
        return False
    words: list[object] = ["--few-vehicles" if seed % 3 == 0 else "--for-passengers"]
    if not len(demand_of(dataset.read(folder)).origin):
        weights = folder.parent / f"weights{seed}"
        count = len(dataset.read(folder)[formats.PERIODIC_ACTIVITIES])
        weights.write_text("".join(f"{it}; {it % 7}.5\n" for it in range(1, count + 1)))
        words = ["--weights", weights]
    ended = run("lintim-timetable", folder, *words, "--seconds", 2)
    if ended.status != 0:
        assert "no line is driven" in ended.one_line()
        return False
    dataset.write_settings(folder, {"pin_timetable": "yes"})
    assert made(folder) and program.run(folder, "check").last == "checked"
    values = {row.key: row.value // 10**6 for row in dataset.read(folder)[formats.STATISTIC]}
    (after,) = (line for line in ended.out if line.startswith("timetable: after:"))
    for kind in ("drive", "wait", "change"):
        assert f"{kind}s {values[f'tim_{kind}_time']}," in after
    vehicles = [line for line in ended.out if "lintim make then needs" in line]
    assert not vehicles or f"needs {values['vs_vehicles']} vehicles" in vehicles[0]
    return True


@pytest.mark.parametrize("seed", range(4))
def test_lintim_takes_good_timetables(seed: int, tmp_path: Path, lintim: str) -> None:
    is_good(seed, tmp_path / "it")


@pytest.mark.long
def test_lintim_takes_good_timetables_on_200_datasets(tmp_path: Path, lintim: str) -> None:
    made_good = sum(is_good(seed, tmp_path / str(seed)) for seed in range(2000, 2200))
    print(f"{made_good} timetables were taken")
    assert made_good > 60


def test_a_town_gets_better(example: Folders, lintim: str) -> None:
    folder = made(example("market-town"))
    ended = run("lintim-timetable", folder, "--for-passengers", "--seconds", 3)
    assert ended.status == 0 and not ended.err
    before, after = (float(line.split()[2]) for line in ended.out if " minutes from stop" in line)
    assert after < before


def test_faults_are_one_line(example: Folders, tmp_path: Path, lintim: str) -> None:
    folder = made(example("three-stops"))
    weights = tmp_path / "weights"
    weights.write_text("1; 2\n99; 1\n")
    twice, nothing = tmp_path / "twice", tmp_path / "nothing"
    twice.write_text("1; 2\n1; 1\n")
    nothing.write_text("1; 0\n")
    for words, says in (
        (("--for-passengers",), "basis/OD.giv has no demand: name weights by --weights FILE"),
        (("--weights", twice), f"{twice} row 2: activity 1 comes twice"),
        (("--weights", nothing), f"{nothing} has no weight above 0"),
        (("--weights", weights), f"{weights} row 2: unknown activity (99)"),
        (("--weights", tmp_path / "none"), "none cannot be read: No such file or directory"),
    ):
        ended = run("lintim-timetable", folder, *words)
        assert ended.status == 1 and says in ended.one_line()
    for words, says in (
        (("--few-vehicles", "--changes", "3"), "--changes goes with none of the other words"),
        (("--change-penalty", "3"), "--change-penalty wants --for-passengers"),
    ):
        ended = run("lintim-timetable", folder, *words)
        assert ended.status == 2 and says in ended.one_line()
