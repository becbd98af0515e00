"""Plans that the commands write over seeded datasets: `lintim` takes each one, and checks it."""

from pathlib import Path

import pytest

import seeded
from commands import made, run
from lintim_companion import dataset, formats, program, trials


def takes_all_plans(seed: int, folder: Path) -> int:
    """Whether `lintim` takes each plan that a command writes over a seeded dataset, and checks it;
    how many plans there are."""
    seeded.write(folder, seeded.dataset(seed))
    plans = 0
    for name, (key, stage) in trials.PINNED.items():
        program.run(folder, "make")
        status = run(f"lintim-{name}", folder).status
        if status == 0:
            plans += 1
            dataset.write_settings(folder, {key: "yes"})
            answer = program.run(folder, "make")
            assert answer.line_of(stage).endswith(", pinned"), (seed, name, answer.out)
            assert name == "timetable" or "not proved" not in answer.line_of(stage)
            checked = program.run(folder, "check")
            assert checked.last == "checked" or answer.status in (4, 5), (seed, name, checked.out)
    if program.run(folder, "make").status == 0:
        data = dataset.read(folder)
        counts = (len(data[it]) for it in (formats.DAY_EVENTS, formats.DAY_ACTIVITIES))
        seeded.write(folder, seeded.delays(seed, *counts))
        made(folder)
        for penalty in (0, 3, 30):
            assert run("lintim-waits", folder, penalty).status == 0
            assert program.run(folder, "check-waits", str(penalty)).last == "checked"
            plans += 1
    return plans


@pytest.mark.parametrize("seed", range(6))
def test_plans_are_taken(seed: int, tmp_path: Path, lintim: str) -> None:
    takes_all_plans(seed, tmp_path)


@pytest.mark.long
def test_plans_are_taken_on_200_datasets(tmp_path: Path, lintim: str) -> None:
    plans = sum(takes_all_plans(seed, tmp_path / str(seed)) for seed in range(1000, 1200))
    print(f"{plans} plans were taken")
    assert plans > 600
