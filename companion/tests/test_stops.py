"""Commands that are stopped, or whose time is over: what was found stays."""

import os
import re
import signal
import subprocess
import time
from pathlib import Path

import pytest

from commands import BIN, PYTHON, environment, made, run, start
from conftest import Folders
from lintim_companion import dataset, generators, program
from lintim_companion.trial_problems import LONG_PROOF, NO_PROOF, TrialProblem
from lintim_companion.trial_problems import write_line_problem

pytestmark = pytest.mark.usefixtures("lintim")


def hard_problem(folder: Path, problem: TrialProblem = LONG_PROOF) -> Path:
    """A line problem whose proof takes long; its costs are made."""
    write_line_problem(folder, problem)
    program.run(folder, "make")
    return folder


def wait_for(path: Path) -> None:
    """Waits until a file is there."""
    for _ in range(1200):
        if path.exists():
            return
        time.sleep(0.05)
    pytest.fail(f"{path} was not written")


@pytest.mark.parametrize("by", [signal.SIGINT, signal.SIGTERM])
def test_what_was_found_stays_where_a_proof_is_stopped(by: signal.Signals, tmp_path: Path) -> None:
    folder = hard_problem(tmp_path)
    command = start("lintim-concept", folder)
    wait_for(folder / "pinned/Line-Concept.lin")
    command.send_signal(by)
    _, err = command.communicate()
    assert err.decode() == "lintim-concept: stopped; what was found is in pinned/Line-Concept.lin\n"
    assert command.returncode == 0
    assert not (folder / "pinned/Line-Concept.cert").exists()
    dataset.write_settings(folder, {"pin_concept": "yes"})
    assert "not proved optimal, pinned" in program.run(folder, "make").line_of("concept")


def test_stopped_before_anything_is_found(example: Folders) -> None:
    folder = made(example("demo 8"))
    command = start("lintim-timetable", folder, "--changes", 45)
    assert command.stdout
    command.stdout.readline()
    command.send_signal(signal.SIGINT)
    out, err = command.communicate()
    assert (out, err) == (b"", b"lintim-timetable: stopped before anything was found\n")
    assert command.returncode == 130
    assert not (folder / "pinned").exists()


def test_two_signals_that_come_together_are_one(example: Folders) -> None:
    """`timeout` sends one to the command, and one to its group."""
    folder = made(example("demo 8"))
    command = start("lintim-timetable", folder, "--changes", 45)
    assert command.stdout
    command.stdout.readline()
    command.send_signal(signal.SIGTERM)
    command.send_signal(signal.SIGTERM)
    _, err = command.communicate()
    assert err == b"lintim-timetable: stopped before anything was found\n"
    assert command.returncode == 128 + signal.SIGTERM


@pytest.mark.long
def test_time_is_over(tmp_path: Path) -> None:
    folder = hard_problem(tmp_path)
    ended = run("lintim-concept", folder, "--seconds", 2)
    assert ended.status == 0 and not ended.err
    assert "not proved in time; it is in pinned/Line-Concept.lin" in ended.out[1]
    assert not (folder / "pinned/Line-Concept.cert").exists()


@pytest.mark.long
def test_time_is_over_before_anything_is_found(example: Folders) -> None:
    folder = made(example("demo 8"))
    ended = run("lintim-timetable", folder, "--changes", 45, "--seconds", 3)
    assert ended.status == 1
    said = r"lintim-timetable: CaDiCaL found no answer in [3-9] seconds"  # where others run, later
    assert re.fullmatch(said, ended.one_line())


@pytest.mark.long
def test_progress_on_a_terminal(tmp_path: Path) -> None:
    folder = hard_problem(tmp_path, NO_PROOF)
    ours, theirs = os.openpty()
    command = subprocess.Popen(
        [*PYTHON, str(BIN / "lintim-concept"), str(folder), "--seconds", "20"],
        stdout=subprocess.DEVNULL,
        stderr=theirs,
        env=environment(),
    )
    os.close(theirs)
    command.wait()
    lines = os.read(ours, 1 << 16).decode().split("\r\n")
    assert len(lines) > 4 and all(line.startswith("lintim-concept: ") for line in lines[:-1])
    assert "nodes" in lines[-2]


@pytest.mark.parametrize("model", ("direct", "time", "both"))
def test_a_model_that_is_stopped_leaves_what_was_found(model: str, tmp_path: Path) -> None:
    """A concept of least cost is pinned before the model itself is asked."""
    network = generators.planar(36, 5)
    lines, demand = generators.lines_of(network, 90, 5), generators.gravity(network, 4000, 5)
    generators.write(tmp_path, network, lines, demand, {"load_source": "od", "load_spread": 12})
    program.run(tmp_path, "make")
    command = start("lintim-concept", tmp_path, "--model", model)
    wait_for(tmp_path / "pinned/Line-Concept.lin")
    command.send_signal(signal.SIGINT)
    _, err = command.communicate()
    said = err.decode()
    assert command.returncode == 0
    assert said == "lintim-concept: stopped; what was found is in pinned/Line-Concept.lin\n"
    dataset.write_settings(tmp_path, {"pin_concept": "yes"})
    assert "pinned" in program.run(tmp_path, "make").line_of("concept")
