"""Studies: their files, days of delays, tables, and runs that are killed and started again."""

import csv
import os
import random
import shutil
import signal
import subprocess
import time
from collections.abc import Callable
from pathlib import Path

import hypothesis.strategies as some
import pytest
from hypothesis import given, settings

from commands import PYTHON, environment, made
from conftest import Folders
from lintim_companion import dataset, formats, program
from lintim_companion.delays import LAWS, PLACES, Lateness, day_of_delays
from lintim_companion.faults import Refused
from lintim_companion.manners import see_package
from lintim_companion.registry import Package
from lintim_companion.studies import plots, study, table
from lintim_companion.studies.point import row_of

STUDIES = program.CHECKOUT / "companion/studies"
RUN = STUDIES / "run"
SMALL = (STUDIES / "small.toml").read_text()


@pytest.fixture
def snakemake(lintim: str) -> None:
    """Leaves out what needs Snakemake, where it is not there."""
    try:
        see_package(Package("snakemake", program="snakemake"))
        see_package(Package("python3-matplotlib", module="matplotlib"))
    except Refused as why:
        pytest.skip(str(why))


def words(path: Path, into: Path, *more: str) -> list[str]:
    return [*PYTHON, str(RUN), str(path), str(into), "--cores", "2", *more]


def run(path: Path, into: Path, **more: str) -> "subprocess.CompletedProcess[str]":
    return subprocess.run(
        words(path, into), env=environment(**more), capture_output=True, text=True
    )


def without_times(into: Path) -> list[dict[str, str]]:
    """The table without its columns of seconds."""
    with open(into / table.TABLE, newline="") as file:
        rows = list(csv.DictReader(file))
    return [{k: v for k, v in row.items() if not k.startswith("seconds_")} for row in rows]


def written(path: Path, text: str) -> Path:
    path.write_text(text)
    return path


@pytest.mark.parametrize("name", sorted(path.name for path in STUDIES.glob("*.toml")))
def test_the_studies_can_be_read(name: str) -> None:
    path = STUDIES / name
    found = study.read(path)
    assert len(found.points) >= {"small": 8, "on-two-nodes": 16}.get(path.stem, 100)
    assert found.title and found.plots


@pytest.mark.parametrize(
    "text, says",
    [
        ("networks = 5", "unknown table [networks]"),
        ("[plans]\nseconds = 2", "there is no table [networks]"),
        ("[networks]\nkind = 'star'\nstops = 3", "no kind of grid, ring, planar with stops"),
        ("[networks]\ndataset = 'nowhere'", "nowhere is no dataset"),
        ("[networks]\nstop = 3", "[networks] unknown key stop"),
        (SMALL.replace("load_spread", "load_spred", 1), "[settings] unknown key load_spred"),
        (SMALL.replace('"lintim-concept"]', '"best"]'), "concept 'best', wanted one of lintim"),
        (SMALL.replace("stops = 7", "stops = [7, [8]]"), "[networks] stops: [8] is no word"),
        (SMALL.replace("stops = 7", "stops = 7.5"), "stops 7.5, wanted a whole number"),
        (SMALL + "[delays]\nlaw = 'uniform'", "[delays] has no mean, share, of, delay_seed"),
        ("[networks", "Expected"),
    ],
)
def test_a_study_that_is_none_is_one_line(text: str, says: str, tmp_path: Path) -> None:
    with pytest.raises(Refused) as why:
        study.read(written(tmp_path / "it.toml", text))
    assert says in str(why.value) and "\n" not in str(why.value)


def test_an_edit_of_a_dataset_makes_another_point(example: Folders, tmp_path: Path) -> None:
    folder = example("three-stops")
    path = written(tmp_path / "it.toml", f"[networks]\ndataset = '{folder.name}'")
    before = list(study.read(path).points)
    assert list(study.read(path).points) == before
    with open(folder / "basis/Edge.giv", "a") as file:
        file.write("# a comment\n")
    assert list(study.read(path).points) != before


@given(law=some.sampled_from(sorted(LAWS)), mean=some.floats(1, 60), seed=some.integers(0, 99))
@settings(max_examples=20)
def test_delays_have_their_mean(law: str, mean: float, seed: int) -> None:
    chance = random.Random(f"{law} {seed}")
    drawn = [LAWS[law](chance, mean) for _ in range(4000)]
    assert min(drawn) >= 0 and 0.85 < sum(drawn) / len(drawn) / mean < 1.2


@pytest.mark.parametrize("of", PLACES)
def test_a_day_of_delays_is_taken_and_does_not_depend_on_the_length_of_the_day(
    of: str, example: Folders, lintim: str
) -> None:
    folder = made(example("market-town"))
    it = Lateness("weibull", 5, 0.3, of, 7)
    data = dataset.read(folder)
    events, activities = day_of_delays(data, it)
    assert (events, activities) == day_of_delays(dataset.read(folder), it)
    assert events or activities
    dataset.write(folder, formats.EVENT_DELAYS, events)
    dataset.write(folder, formats.ACTIVITY_DELAYS, activities)
    assert program.run(folder, "make").status == 0
    late = {data[formats.DAY_EVENTS][it.event_id - 1].periodic_id for it in events}
    longer = data.settings._replace(DM_latest_time=data.settings.DM_latest_time + 60)
    dataset.write_settings(folder, {"DM_latest_time": longer.DM_latest_time})
    dataset.remove(folder, formats.EVENT_DELAYS)
    dataset.remove(folder, formats.ACTIVITY_DELAYS)
    made(folder)
    later, _ = day_of_delays(dataset.read(folder), it)
    assert late <= {
        dataset.read(folder)[formats.DAY_EVENTS][it.event_id - 1].periodic_id for it in later
    }


def test_a_point_that_breaks_is_told_with_its_fault(tmp_path: Path, lintim: str) -> None:
    (tmp_path / "basis").mkdir()
    point = {"kind": "grid", "stops": 4, "seed": 1, "customers": 10, "pairs": 2, "seconds": 5}
    row = row_of({**point, "period_length": 9999}, tmp_path / "one", tmp_path)
    assert (row["outcome"], "period_length" in row["fault"]) == ("broken", True)
    assert not (tmp_path / "one").exists()


def test_means_and_parts_of_plots() -> None:
    rows = [{"x": x, "y": y, "z": 2, "seed": 1, "by": "b"} for x, y in ((1, 2), (1, 4), (2, 9))]
    means = plots.series_of(study.Plot("t", "x", ["y"]), rows)
    assert means == {"": [(1, 3.0, 2), (2, 9.0, 1)]}
    parts = plots.series_of(study.Plot("t", "x", ["y", "z"], over="z"), rows)
    assert parts == {"y": [(1, 1.5, 2), (2, 4.5, 1)], "z": [(1, 1.0, 2), (2, 1.0, 1)]}
    ours = [{"mean": x, "y": y, "seed": s} for x, y, s in ((1, 2, 1), (2, 6, 1), (2, 5, 3))]
    based = plots.series_of(study.Plot("t", "mean", ["y"], base={"mean": 1}), ours)
    assert based == {"": [(1, 1.0, 1), (2, 3.0, 1)]}


@pytest.mark.usefixtures("snakemake")
def test_points_that_stand_stay_and_a_broken_one_is_told(tmp_path: Path) -> None:
    path = written(tmp_path / "it.toml", SMALL.replace("[2, 5]", "[5, 2000]"))
    ended = run(path, tmp_path / "out")
    lines = ended.stdout.splitlines()
    assert (ended.returncode, ended.stderr) == (1, "")
    assert sum("broke: value of load_spread (2000, " in line for line in lines) == 4
    assert lines[-1].startswith("it: 4 good, 0 without a plan, 4 broken; see table.csv")
    page = (tmp_path / "out" / plots.PAGE).read_text()
    assert "<svg" in page and "value of load_spread" in page
    before = {it: it.stat().st_mtime_ns for it in (tmp_path / "out/points").iterdir()}
    again = run(written(path, SMALL.replace("[2, 5]", "[5, 6]")), tmp_path / "out")
    assert again.returncode == 0 and again.stdout.startswith("it: 8 points, 4 stand, 0 broken")
    kept = [it for it, when in before.items() if it.exists() and it.stat().st_mtime_ns == when]
    good = [it for it in before if '"good"' in it.read_text()]
    assert len(good) == 4 and set(good) <= set(kept)


def test_the_page_shows_a_study_and_names_all_keys() -> None:
    text = (program.CHECKOUT / "docs/STUDIES.md").read_text()
    shown = "".join(f"    {line}\n" if line else "\n" for line in SMALL.splitlines())
    assert shown in text
    named = [key for table, keys in study.TABLES.items() if table != "settings" for key in keys]
    choices = [word for words in study.CHOICES.values() for word in words]
    for word in (*named, *choices, *LAWS, *PLACES, *table.LAST, *study.Plot._fields):
        assert f"`{word}`" in text, word


@pytest.mark.long
@pytest.mark.usefixtures("snakemake")
@pytest.mark.skipif(os.geteuid() != 0, reason="only root can start slurmd")
def test_on_slurm_of_two_nodes_of_which_one_is_taken_away(tmp_path: Path) -> None:
    for name, package in (("slurmd", "slurmd"), ("slurmctld", "slurmctld"), ("munged", "munge")):
        if shutil.which(name) is None:
            pytest.skip(f"the program {name} is missing: apt install {package}")
    ended = subprocess.run(
        [str(STUDIES / "two-nodes"), str(tmp_path / "out")],
        env=environment(),
        capture_output=True,
        text=True,
    )
    assert ended.returncode == 0, ended.stdout + ended.stderr
    assert "SLURM status is: 'NODE_FAIL'" in ended.stdout
    assert ended.stdout.endswith("16 rows on Slurm, 16 without it: the same\n")


def kill_when(is_time: Callable[[], bool], path: Path, into: Path) -> bool:
    """Starts a study and kills all of it when it is time: whether it was still at work."""
    started = subprocess.Popen(
        words(path, into),
        env=environment(),
        start_new_session=True,
        stdout=subprocess.DEVNULL,
        stderr=subprocess.DEVNULL,
    )
    while started.poll() is None:
        if is_time():
            os.killpg(started.pid, signal.SIGKILL)
            started.wait()
            return True
        time.sleep(0.02)
    return False


def see_same(path: Path, once: Path, killed: Path) -> None:
    """Sees that a study that was killed gives the table of one that was not, when it is started
    again."""
    assert run(path, killed).returncode == 0
    assert without_times(killed) == without_times(once)
    assert not list((killed / "scratch").glob("*"))


@pytest.mark.usefixtures("snakemake")
def test_killed_and_started_again_the_table_is_the_same(tmp_path: Path) -> None:
    path = written(tmp_path / "it.toml", SMALL.replace('["grid", "ring"]', '"ring"'))
    once, killed = tmp_path / "once", tmp_path / "killed"
    assert run(path, once).returncode == 0
    for wanted in (1, 3):
        points = killed / "points"
        assert kill_when(lambda: len(list(points.glob("[!.]*"))) >= wanted, path, killed)
    see_same(path, once, killed)


@pytest.mark.long
@pytest.mark.usefixtures("snakemake")
def test_killed_at_random_and_started_again_the_table_is_the_same(tmp_path: Path) -> None:
    late = (
        '\n[delays]\nlaw = "lognormal"\nmean = 6\nshare = 0.1\nof = "departures"\ndelay_seed = 1\n'
    )
    text = SMALL + late + '[waits]\nwaits = "lintim-waits"\npenalty = 9\n'
    path, once = written(tmp_path / "it.toml", text), tmp_path / "once"
    assert run(path, once).returncode == 0
    chance = random.Random(63)
    for number in range(5):
        killed, kills = tmp_path / str(number), 0
        for _ in range(4):
            end = time.monotonic() + chance.uniform(0.5, 8)
            kills += kill_when(lambda: time.monotonic() >= end, path, killed)
        assert kills
        see_same(path, once, killed)


@pytest.mark.usefixtures("snakemake")
def test_faults_of_the_command_are_one_line(tmp_path: Path) -> None:
    path = written(tmp_path / "it.toml", SMALL)
    (tmp_path / "full").mkdir()
    (tmp_path / "full/file").touch()
    for ended, says in (
        (run(tmp_path / "no.toml", tmp_path / "out"), "No such file or directory"),
        (run(path, tmp_path / "full"), "has files that are not of a study: name a new folder"),
        (run(path, path), "no folder"),
        (run(path, tmp_path / "out", PATH="/nowhere"), "the program snakemake is missing"),
        (run(path, tmp_path / "out", LINTIM="/nowhere/lintim"), "which is no program"),
    ):
        assert ended.returncode == 1 and ended.stderr.count("\n") == 1
        assert ended.stderr.startswith("run: ") and says in ended.stderr
