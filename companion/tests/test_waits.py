"""Waiting decisions beside brute force, and on the late days of a town."""

import itertools
import random
from pathlib import Path

import pytest

from commands import made, run
from conftest import Folders
from lintim_companion import dataset, formats, trials
from lintim_companion.hand import copy_hand_files
from lintim_companion.waits.core import Core
from lintim_companion.waits.day import Day, DayEvent, Link, read_day
from lintim_companion.waits.decision import by_rules, decision
from lintim_companion.waits.solve import cheapest, proved
from searches import QUIET, at_once, time

__all__ = ["at_once"]


def random_day(seed: int) -> Day:
    """A day of some trips with changes between them and with delays."""
    chance = random.Random(seed)
    events: list[DayEvent] = []
    links: list[Link] = []
    changes: list[Link] = []
    for _ in range(chance.randint(2, 6)):
        at = chance.randint(0, 15)
        for stop in range(2 * chance.randint(1, 3)):
            if stop:
                links.append(Link(len(events) - 1, len(events), chance.randint(1, 3)))
            events.append(DayEvent(at, chance.choice((0, 0, 0, 0, 4, 9)), stop % 2 == 1))
            at += chance.randint(3, 5)
    for a, b in itertools.permutations(range(len(events)), 2):
        is_change = events[a].is_arrival and not events[b].is_arrival
        is_soon = events[a].planned + 1 < events[b].planned < events[a].planned + 8
        if is_change and is_soon and len(changes) < 9:
            late = chance.choice((0, 0, 3))
            changes.append(Link(a, b, 1 + late, 100 + len(changes), late))
    return Day(events, links + changes)


def cost_of(day: Day, penalty: int, dropped: set[int]) -> int:
    """What a decision costs, by the times of the whole day."""
    return day.delay(day.least(dropped)) + penalty * len(dropped)


def least_cost(day: Day, penalty: int) -> int:
    """The least cost of all decisions."""
    every = itertools.product((False, True), repeat=len(day.ids))
    return min(cost_of(day, penalty, {*itertools.compress(day.ids, which)}) for which in every)


def is_tree(day: Day, penalty: int, cost: int, nodes: list[int]) -> bool:
    """Whether nodes are a tree that proves a cost, by what `lintim` asks of one."""
    todo: list[tuple[frozenset[int], frozenset[int]]] = [(frozenset(), frozenset())]
    for node in nodes:
        if not todo:
            return False
        kept, dropped = todo.pop()
        if node == 0:
            times = day.least(day.ids - kept)
            if day.delay(times) + penalty * len(dropped) < cost:
                return False
        elif node in kept | dropped:
            return False
        else:
            todo += [(kept, dropped | {node}), (kept | {node}, dropped)]
    return not todo


@pytest.mark.parametrize("seed", range(150))
def test_waits_by_brute_force(seed: int, at_once: None) -> None:
    day = random_day(seed)
    core = Core(day)
    for penalty in (0, 1, 4, 20):
        handed: list[int] = []
        best, is_best = cheapest(
            core, penalty, time(), QUIET, lambda found: handed.append(found.cost)
        )
        least = least_cost(day, penalty)
        assert cost_of(day, penalty, {*best.dropped}) == least
        assert (best.cost, is_best) == (least, True) and handed[-1] == least
        assert handed == sorted(set(handed), reverse=True)
        assert least <= min(rule.cost for rule in by_rules(core, penalty).values())
        best, nodes = proved(core, penalty, best, 10_000, time(), QUIET)
        assert nodes is not None and is_tree(day, penalty, least, nodes)
        assert not is_tree(day, penalty, least + 1, nodes)


@pytest.mark.parametrize("seed", range(40))
def test_the_proof_of_a_dear_decision_meets_a_cheaper_one(seed: int, at_once: None) -> None:
    day = random_day(seed)
    core = Core(day)
    dear = decision(core, 3, day.ids)
    best, nodes = proved(core, 3, dear, 10**6, time(), QUIET)
    least, _ = cheapest(core, 3, time(), QUIET)
    assert best.cost == least.cost
    assert nodes is not None and is_tree(day, 3, best.cost, nodes)


def test_a_tree_has_at_most_so_many_nodes(tmp_path: Path, lintim: str) -> None:
    copy_hand_files(trials.TOWN, tmp_path)
    made(tmp_path)
    trials.write_delays(tmp_path, 3, 1, 4)
    few = run("lintim-waits", tmp_path, 30, "--nodes", 100)
    assert few.status == 0
    assert "not proved within 100 nodes; HiGHS says that none costs less" in few.out[2]
    assert few.out[3] == "waits: --nodes 5000000 may prove it, in minutes"
    assert few.out[4] == "waits: written to waiting/Waits.cert; lintim check-waits 30 says checked"
    assert trials.saved((tmp_path / formats.WAITS.name).read_text()) == (393, 0)


@pytest.mark.parametrize("seed", [2, 5, 8, 13, 36])
def test_days_of_a_town(seed: int, tmp_path: Path, lintim: str) -> None:
    for _, _, case in trials.town_cases(tmp_path, range(seed, seed + 1)):
        assert case.is_good and case.nodes and case.is_marked is (case.built_in == case.cost)


@pytest.mark.long
def test_120_days_of_a_town(tmp_path: Path, lintim: str) -> None:
    cases = [case for _, _, case in trials.town_cases(tmp_path, range(40))]
    print("\n".join(trials.summary(cases)))
    assert all(case.is_good for case in cases)
    assert sum(case.nodes > 0 for case in cases) >= 115


@pytest.mark.long
def test_demo_8_with_ten_delays(example: Folders, lintim: str) -> None:
    folder = made(example("demo 8"))
    trials.write_delays(folder, 8, 10, 10)
    assert all(case.is_good for case in trials.wait_cases(folder).values())


def test_a_saved_decision_is_where_the_search_begins(example: Folders, lintim: str) -> None:
    folder = made(example("market-town"))
    assert run("lintim-waits", folder, 10).status == 0
    before = (folder / formats.WAITS.name).read_bytes()
    assert trials.saved(before.decode())[0] == 49
    assert run("lintim-waits", folder, 10, "--nodes", 1).status == 0
    assert (folder / formats.WAITS.name).read_bytes() == before
    assert cost_of(read_day(dataset.read(folder)), 10, {60}) == 49
