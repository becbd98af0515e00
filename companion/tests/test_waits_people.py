"""Waiting decisions by passengers, beside brute force and beside the plain rules."""

import itertools
import random

import pytest

from commands import made, run
from conftest import Folders
from lintim_companion.cells import MILLION
from lintim_companion.waits.core import Core
from lintim_companion.waits.decision import RULES
from lintim_companion.waits.people import Weights, broken, by_people, cost_of
from searches import QUIET, at_once, time
from test_waits import random_day

__all__ = ["at_once"]


@pytest.mark.parametrize("seed", range(60))
def test_the_weighted_optimum_by_brute_force(seed: int, at_once: None) -> None:
    day, chance = random_day(seed), random.Random(seed)
    ends = [chance.randint(0, 50) * MILLION // 10 for _ in day.events]
    weights = Weights(ends, {it: chance.randint(0, 30) * MILLION // 10 for it in day.ids})
    core = Core(day)
    for penalty in (0, 3, 20):
        best = by_people(day, core, weights, penalty, time(), QUIET)
        every = itertools.product((False, True), repeat=len(day.ids))
        drops = ({*itertools.compress(day.ids, which)} for which in every)
        assert best.is_best
        assert best.cost == min(cost_of(day, weights, penalty, it) for it in drops)
        for most in RULES.values():
            rule = broken(core, [it.id for it in core.changes if it.wait > most])
            assert best.cost <= cost_of(day, weights, penalty, rule)


def test_a_decision_by_passengers_is_judged(example: Folders, lintim: str) -> None:
    folder = made(example("market-town"))
    ended = run("lintim-waits", folder, 10, "--compare")
    assert ended.status == 0 and not (folder / "waiting").exists()
    costs = [float(line.split("cost ")[1].split(",")[0]) for line in ended.out[:6]]
    assert min(costs) == costs[5]
    ended = run("lintim-waits", folder, 10, "--passengers")
    assert (ended.status, ended.err) == (0, [])
    assert ended.out[-1].endswith("lintim check-waits 10 says checked")
