"""The manners of all commands, with a fault tried for each of them."""

import errno
import os
import shutil
import subprocess
import sys
from pathlib import Path

import pytest

from commands import BIN, PYTHON, environment, made, run, start
from conftest import Folders
from lintim_companion import files, formats, manners
from lintim_companion.faults import Refused, Stopped
from lintim_companion.registry import COMMANDS, STATUSES, Command, Package

pytestmark = pytest.mark.usefixtures("lintim")
PLANS = {
    "lintim-concept": ((), ["pinned/Line-Concept.lin", "pinned/Line-Concept.cert"]),
    "lintim-timetable": ((), ["pinned/Timetable-periodic.tim"]),
    "lintim-schedule": ((), ["pinned/Vehicle_Schedules.vs", "pinned/Vehicle_Schedules.cert"]),
    "lintim-waits": (("10",), ["waiting/Waits.cert"]),
}
planners = pytest.mark.parametrize("name", PLANS)


def words_of(name: str, folder: object) -> list[object]:
    return [folder, *PLANS[name][0]]


def files_of(folder: Path) -> dict[str, bytes]:
    return {str(path): path.read_bytes() for path in folder.rglob("*") if path.is_file()}


@pytest.mark.parametrize("command", COMMANDS, ids=[command.name for command in COMMANDS])
def test_help_has_an_example_and_the_exit_statuses(command: Command) -> None:
    ended = run(command.name, "--help")
    text = "\n".join(ended.out)
    assert ended.status == 0 and not ended.err
    assert command.example in text and command.says in text
    for status, says in command.statuses:
        assert f"  {status:<4} {says}" in text
    for word in command.words:
        assert word.name.lstrip("-").lower() in text.lower()


@pytest.mark.parametrize("command", COMMANDS, ids=[command.name for command in COMMANDS])
def test_wrong_words_are_one_line(command: Command) -> None:
    ended = run(command.name, ".", "--no-such-word")
    assert ended.status == 2 and not ended.out
    assert ended.one_line().endswith(f"see {command.name} --help")


@planners
def test_the_example_of_the_help_runs_and_writes_its_files(name: str, example: Folders) -> None:
    folder = made(example("market-town"))
    before = files_of(folder)
    words = next(it for it in COMMANDS if it.name == name).example.split()
    ended = subprocess.run(
        [*PYTHON, str(BIN / words[0]), *words[1:]],
        cwd=folder,
        env=environment(),
        capture_output=True,
    )
    assert (ended.returncode, ended.stderr) == (0, b"")
    new = {path: data for path, data in files_of(folder).items() if before.get(path) != data}
    assert sorted(new) == sorted(str(folder / file) for file in PLANS[name][1])


@planners
def test_a_missing_package_is_one_line(name: str, example: Folders) -> None:
    folder = made(example("three-stops"))
    if name == "lintim-timetable":
        line = run(name, *words_of(name, folder), PATH="/nowhere").one_line()
        assert line == f"{name}: the program cadical is missing: apt install cadical"
    else:
        ended = run(name, *words_of(name, folder), start=(*PYTHON, "-S"))
        line = ended.one_line()
        assert line == f"{name}: the package scipy is missing: apt install python3-scipy"
        assert ended.status == 1


def test_a_package_that_is_there_for_another_python_is_said(
    monkeypatch: pytest.MonkeyPatch,
) -> None:
    monkeypatch.setattr(sys, "executable", "/opt/python3")
    with pytest.raises(Refused, match="for /usr/bin/python3 and not for /opt/python3"):
        manners.see_package(Package("python3-nothing", module="no_such_module"))


@planners
def test_a_missing_program_is_one_line(name: str, example: Folders, tmp_path: Path) -> None:
    folder = made(example("three-stops"))
    ended = run(name, *words_of(name, folder), LINTIM="/nowhere/lintim")
    assert ended.status == 1
    assert ended.one_line() == f"{name}: LINTIM is '/nowhere/lintim', which is no program"
    alone = tmp_path / "alone"
    for part in ("bin", "lintim_companion"):
        shutil.copytree(BIN.parent / part, alone / part, ignore=shutil.ignore_patterns("__*"))
    ended_alone = subprocess.run(
        [*PYTHON, str(alone / "bin" / name), *map(str, words_of(name, folder))],
        env={"PATH": os.path.dirname(str(shutil.which("cadical") or "/usr/bin"))},
        capture_output=True,
        text=True,
    )
    assert ended_alone.returncode == 1
    if shutil.which("lintim", path="/usr/bin") is None:
        assert ended_alone.stderr.count("\n") == 1 and "lintim is not found" in ended_alone.stderr


@planners
def test_a_folder_that_is_none_is_one_line(name: str, tmp_path: Path) -> None:
    (tmp_path / "file").touch()
    for folder, why in (
        ("no such", "no such folder"),
        ("file", "no folder"),
        (".", "is no dataset: it has no folder basis"),
    ):
        ended = run(name, *words_of(name, tmp_path / folder))
        assert ended.status == 1 and not ended.out
        assert (
            ended.one_line() == f"{name}: {tmp_path / folder}{':' if folder != '.' else ''} {why}"
        )


@planners
def test_a_stage_that_is_not_kept_is_one_line(name: str, example: Folders) -> None:
    folder = example("three-stops")
    fresh = run(name, *words_of(name, folder))
    assert fresh.status == 1 and fresh.one_line().endswith("run lintim make first")
    made(folder)
    with open(folder / "basis/Config.cnf", "a") as file:
        file.write("\nlast_stage; load\n")
    line = run(name, *words_of(name, folder)).one_line()
    assert line.endswith("is off: it comes after last_stage; run lintim make first")
    with open(folder / "basis/Load.giv", "a") as file:
        file.write("# another text\n")
    with open(folder / "basis/Config.cnf", "a") as file:
        file.write("\nlast_stage; statistic\n")
    stale = run(name, *words_of(name, folder))
    assert stale.status == 1 and ("is stale: " in stale.err[0] or "is unknown: " in stale.err[0])


@planners
def test_a_file_of_another_shape_is_one_line(name: str, example: Folders) -> None:
    folder = made(example("three-stops"))
    spoiled = {
        "lintim-concept": formats.LOADS,
        "lintim-timetable": formats.PERIODIC_ACTIVITIES,
        "lintim-schedule": formats.TRIPS,
        "lintim-waits": formats.SCHEDULE,
    }[name]
    (folder / spoiled.name).write_text("1; 2\n")
    ended = run(name, *words_of(name, folder))
    assert ended.status == 1
    assert f"stage {spoiled.stage} is edited" in ended.one_line()
    (folder / "basis/Config.cnf").write_text("period_length; 07:00\n")
    line = run(name, *words_of(name, folder)).one_line()
    assert "value of period_length ('07:00' in basis/Config.cnf row 1, wanted whole 1" in line


@planners
def test_files_that_do_not_fit_together_are_one_line(
    name: str, example: Folders, tmp_path: Path
) -> None:
    """Where `lintim` itself says that all is well, and it is not."""
    liar = tmp_path / "liar"
    states = "\\n".join(f"{stage}: kept" for stage in formats.STAGES)
    liar.write_text(f"#!/bin/sh\nprintf '{states}\\n'\n")
    liar.chmod(0o755)
    folder = made(example("three-stops"))
    (folder / "basis/Pool.giv").write_text("9; 1; 77\n")
    (folder / formats.LOADS.name).write_text("5; 1; 1; 2\n")
    (folder / formats.PERIODIC_EVENTS.name).write_text("")
    (folder / formats.DAY_EVENTS.name).write_text("")
    (folder / formats.SCHEDULE.name).write_text("")
    (folder / "basis/Edge.giv").write_text("not a row\n")
    ended = run(name, *words_of(name, folder), LINTIM=str(liar))
    assert ended.status == 1
    ended.one_line()


@planners
def test_a_folder_that_cannot_be_written_is_one_line(name: str, example: Folders) -> None:
    folder = made(example("three-stops"))
    place = folder / os.path.dirname(PLANS[name][1][0])
    place.write_text("a file in the place of the folder")
    ended = run(name, *words_of(name, folder))
    assert ended.status == 1 and not ended.out
    assert "cannot be written" in ended.one_line()
    place.unlink()
    place.symlink_to("/tmp")
    assert (
        "is a link, which lintim does not follow" in run(name, *words_of(name, folder)).one_line()
    )


@pytest.mark.skipif(os.geteuid() != 0, reason="only root can become somebody else")
@planners
def test_a_folder_of_somebody_else_is_one_line(name: str, example: Folders) -> None:
    folder = made(example("three-stops"))
    place = Path("/tmp", f"lintim-companion-{os.getpid()}")
    shutil.copytree(folder, place)
    try:
        place.chmod(0o755)
        nobody = ("setpriv", "--reuid=65534", "--regid=65534", "--clear-groups", *PYTHON)
        ended = run(name, *words_of(name, place), start=nobody)
        if "Permission denied" not in "".join(ended.err):  # the checkout itself may be closed
            assert ended.status == 1 and "cannot be written" in ended.one_line()
    finally:
        shutil.rmtree(place)


@planners
def test_nothing_is_read_on_is_no_fault(name: str, example: Folders) -> None:
    folder = made(example("three-stops"))
    command = start(name, *words_of(name, folder))
    assert command.stdout and command.stderr
    command.stdout.close()
    assert (command.wait(), command.stderr.read()) == (0, b"")
    assert all((folder / file).exists() for file in PLANS[name][1])


@planners
def test_a_report_that_cannot_be_written_is_one_line(name: str, example: Folders) -> None:
    """The exit status is 0 all the same, since the plan is there."""
    folder = made(example("three-stops"))
    with open("/dev/full", "w") as full:
        ended = subprocess.run(
            [*PYTHON, str(BIN / name), *map(str, words_of(name, folder))],
            stdout=full,
            stderr=subprocess.PIPE,
            env=environment(),
        )
    assert ended.returncode == 0 and ended.stderr.count(b"\n") == 1
    assert b"the report could not be written: No space left on device" in ended.stderr
    assert all((folder / file).exists() for file in PLANS[name][1])


@planners
def test_through_a_link_from_any_folder_with_any_name(
    name: str, example: Folders, tmp_path: Path
) -> None:
    folder = tmp_path / "eine St\u00e4dte; # und so"
    shutil.copytree(made(example("three-stops")), folder)
    (tmp_path / "another name").symlink_to(BIN / name)
    ended = subprocess.run(
        [str(tmp_path / "another name"), *map(str, words_of(name, folder))],
        cwd="/",
        env=environment(LC_ALL="C"),
        capture_output=True,
    )
    assert (ended.returncode, ended.stderr) == (0, b"")


def test_a_folder_that_may_not_be_entered_is_one_line(
    monkeypatch: pytest.MonkeyPatch, tmp_path: Path
) -> None:
    def refuse(path: Path) -> bool:
        raise PermissionError(13, "Permission denied", str(path))

    monkeypatch.setattr(Path, "is_dir", refuse)
    with pytest.raises(Refused, match="cannot be read: Permission denied"):
        files.see_folder(tmp_path)


def test_nothing_but_files_is_written_over(tmp_path: Path) -> None:
    """A pipe, a device or a folder in the place of a file stays what it is."""
    os.mkfifo(tmp_path / "pipe")
    (tmp_path / "folder").mkdir()
    for name in ("pipe", "folder"):
        says = f"{name} cannot be written: it is no regular file"
        with pytest.raises(Refused, match=says):
            files.write_bytes(tmp_path, name, b"x")
        with pytest.raises(Refused, match=says):
            files.see_writable(tmp_path, name)
    assert (tmp_path / "pipe").is_fifo() and (tmp_path / "folder").is_dir()


def test_a_folder_for_a_while_is_gone_where_it_ends_in_any_way(
    tmp_path: Path, monkeypatch: pytest.MonkeyPatch
) -> None:
    monkeypatch.setattr("tempfile.tempdir", str(tmp_path))
    for fault, told in (
        (Stopped(2), Stopped),
        (OSError(errno.ENOSPC, "No space left on device"), Refused),
        (OSError(errno.EACCES, "Permission denied"), PermissionError),
    ):
        with pytest.raises(told), files.scratch("test-") as place:
            (place / "file").touch()
            raise fault
        assert not [*tmp_path.iterdir()]
    monkeypatch.setattr("tempfile.tempdir", str(tmp_path / "none"))
    with pytest.raises(Refused, match="no folder can be made in"), files.scratch("test-"):
        pass


def test_progress_is_told_each_few_seconds_and_to_terminals_alone() -> None:
    class Screen:
        def __init__(self, is_terminal: bool) -> None:
            self.is_terminal, self.text = is_terminal, ""

        def isatty(self) -> bool:
            return self.is_terminal

        def write(self, text: str) -> None:
            self.text += text

        def flush(self) -> None:
            pass

    now = 0.0
    screen, file = Screen(True), Screen(False)
    said = [manners.Progress("x", it, lambda: now) for it in (screen, file)]  # type: ignore[arg-type]
    for now in (1.0, 2.0, 3.0, 4.0, 6.5):
        for progress in said:
            progress.tell(lambda: manners.searched("27", "25.5", 0.0556))
    line = "found 27, bound 25.5, gap 5.6%\n"
    assert screen.text == f"x: 3 s: {line}x: 6 s: {line}" and file.text == ""


def test_statuses_are_told_once() -> None:
    assert [status for status, _ in STATUSES] == [0, 1, 2, 130]
