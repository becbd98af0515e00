"""What was not tried with the others: studies, packages and the script of a checkout in a folder full
of traps, times of files that cannot be, and a dataset that is edited while a search runs."""

import os
import shutil
import subprocess
import time
from pathlib import Path

import pytest

import traps
from commands import environment, made, start
from conftest import Folders
from lintim_companion import dataset, formats, program

pytestmark = pytest.mark.usefixtures("lintim")
HOME = program.CHECKOUT
NAMES = ("ctypes", "pickle", "shutil", "json", "numpy", "argparse")
SCRIPT_TOOLS = ("find", "sort", "awk", "sed", "sha256sum", "xargs", "mktemp", "stat", "cat", "tar")


def trapped(folder: Path, ran: Path) -> dict[str, str]:
    """A folder full of traps, tools of scripts among them, and surroundings that lead there."""
    folder.mkdir(parents=True, exist_ok=True)
    traps.set_traps(folder, NAMES, ran)
    for name in SCRIPT_TOOLS:
        shutil.copy(folder / "git", folder / name)
    found = environment(PYTHONPATH=":.", BASH_ENV="", ENV="")
    place = os.path.dirname(found["LINTIM"])
    return found | {"PATH": f":.:{place}:{os.environ['PATH']}:"}


@pytest.mark.long
def test_a_study_runs_nothing_of_the_folder_where_one_stands(tmp_path: Path) -> None:
    for name in ("snakemake", "strace"):
        if shutil.which(name) is None:
            pytest.skip(f"{name} is missing")
    folder, ran = tmp_path / "stand", tmp_path / "ran"
    around = trapped(folder, ran)
    study, out = HOME / "companion/studies/small.toml", tmp_path / "out"
    said = [str(HOME / "companion/studies/run"), str(study), str(out), "--cores", "1"]
    ended = subprocess.run(said, cwd=folder, env=around, capture_output=True, text=True)
    assert ended.returncode == 0, ended.stderr[-2000:]
    assert not ran.exists(), ran.read_text()
    assert (out / "table.csv").exists()


@pytest.mark.parametrize("words", (["--deb", "--out", "OUT"], ["--prefix", "OUT"]))
def test_install_runs_nothing_of_the_folder_where_one_stands(
    words: list[str], tmp_path: Path
) -> None:
    if "--deb" in words and shutil.which("dpkg-deb") is None:
        pytest.skip("dpkg-deb is missing")
    folder, ran = tmp_path / "stand", tmp_path / "ran"
    around = trapped(folder, ran)
    said = [str(HOME / "install"), "--program", program.find()]
    said += [word.replace("OUT", str(tmp_path / "out")) for word in words]
    ended = subprocess.run(said, cwd=folder, env=around, capture_output=True, text=True)
    assert not ran.exists(), ran.read_text()
    assert ended.returncode == 0, ended.stderr


def test_the_script_of_a_checkout_runs_no_tool_of_the_folder_where_one_stands(
    example: Folders, tmp_path: Path
) -> None:
    folder, ran = example("three-stops"), tmp_path / "ran"
    around = trapped(folder, ran)
    ended = subprocess.run(
        [str(HOME / "lintim"), "status"], cwd=folder, env=around, capture_output=True, text=True
    )
    assert not ran.exists(), ran.read_text()
    assert ended.returncode in (0, 1), ended.stderr  # 1 where nothing is built and rt is missing


@pytest.mark.parametrize("moment", (0, 1, 4_000_000_000))
def test_times_of_files_say_nothing(moment: int, example: Folders) -> None:
    """Files of 1970 and of a day to come, as after a clock was set, are files as all others."""
    plain = made(example("market-town"))
    texts = {path: path.read_bytes() for path in plain.rglob("*") if path.is_file()}
    for path in texts:
        os.utime(path, (moment, moment))
    answer = program.run(plain, "make")
    assert (answer.status, answer.last) == (0, "done")
    assert {path: path.read_bytes() for path in texts} == texts
    assert set(program.states(plain).values()) == {"kept"}


def test_a_dataset_that_is_edited_during_a_search_stays_as_it_was_edited(example: Folders) -> None:
    """The plan that is found belongs to what stood there; `lintim` judges it over what stands."""
    folder = made(example("market-town"))
    running = start("lintim-timetable", folder, "--for-passengers", "--seconds", "4")
    time.sleep(1)
    config = folder / "basis/Config.cnf"
    edited = config.read_text().replace("period_length; 30", "period_length; 20")
    assert edited != config.read_text()
    config.write_text(edited)
    rows = list(dataset.read(folder)[formats.STOPS])
    dataset.write(folder, formats.STOPS, [row._replace(long_name="new") for row in rows])
    stops = (folder / "basis/Stop.giv").read_bytes()
    _out, err = running.communicate(timeout=120)
    assert running.returncode in (0, 1) and b"Traceback" not in err
    assert config.read_text() == edited
    assert (folder / "basis/Stop.giv").read_bytes() == stops
    with open(config, "a") as settings:
        settings.write("pin_timetable; yes\n")
    answer = program.run(folder, "make")
    assert answer.status in (0, 3) and answer.last.startswith(("done", "refused: pinned/"))
