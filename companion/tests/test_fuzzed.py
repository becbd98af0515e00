"""Trials of commands by chance: damaged datasets and feeds, strange names, words and surroundings."""

import time
from pathlib import Path

import pytest

import fuzzed

BUDGET = 300.0  # seconds


@pytest.mark.usefixtures("lintim")
def test_some_trials_find_nothing(tmp_path: Path) -> None:
    assert fuzzed.trials(range(430, 440), tmp_path) == (10, [])


@pytest.mark.long
@pytest.mark.usefixtures("lintim")
def test_five_minutes_of_trials_find_nothing(tmp_path: Path) -> None:
    count, found = fuzzed.trials(range(100_000), tmp_path, time.monotonic() + BUDGET)
    assert count > 50
    assert found == []
