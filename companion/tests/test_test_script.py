"""`./test` where there is no `rt`, and what it installs."""

import re
import shutil
from pathlib import Path

import checkouts
import pytest
from checkouts import Checkout

from lintim_companion import program
from lintim_companion.faults import NoProgram
from lintim_companion.tools import packages

pytestmark = [
    pytest.mark.usefixtures("lintim"),
    pytest.mark.skipif(not (checkouts.HOME / "dist").exists(), reason="this is no checkout"),
]
RUNS = ("lintim", "pool_run", "usage_run", "fault_run")


@pytest.fixture
def checkout(tmp_path: Path) -> Checkout:
    """A checkout with the stored runs of the program, whose companion says what it was given."""
    it = checkouts.make(tmp_path)
    for name in RUNS:
        for part in ("args", "stdout", "status", "data"):
            found = checkouts.HOME / "crates" / name / part
            if found.is_dir():
                shutil.copytree(found, it.top / "crates" / name / part)
            elif found.exists():
                (it.top / "crates" / name).mkdir(exist_ok=True)
                shutil.copy(found, it.top / "crates" / name / part)
    with (it.top / "crates.txt").open("a") as lines:
        lines.write("".join(f"{name}: lintim_cli\n" for name in RUNS[1:]))
    check = it.top / "companion/check"
    check.write_text('#!/bin/sh\necho "companion: with $LINTIM $*"\necho "3 passed, 0 failed"\n')
    check.chmod(0o755)
    for name in ("diff", "timeout"):
        (it.tools / name).symlink_to(str(shutil.which(name, path="/usr/bin:/bin")))
    return it


def test_without_rt_it_runs_what_needs_none(checkout: Checkout) -> None:
    ended = checkout.call("test")
    assert (ended.returncode, ended.stderr) == (0, "")
    lines = ended.stdout.splitlines()
    assert lines[0].startswith(
        "crates: left out but fault_run lintim pool_run usage_run: rt is not"
    )
    assert sorted(re.findall(r"^(\w+): \d+ passed, 0 failed", ended.stdout, re.M)) == sorted(RUNS)
    assert f"companion: with {checkout.top}/dist/lintim \n" in ended.stdout
    assert lines[-1] == "16 passed, 0 failed"


def test_a_wrong_answer_fails(checkout: Checkout) -> None:
    checkout.rewrite("crates/lintim/stdout", "concept: cost 27", "concept: cost 28")
    (checkout.top / "crates/usage_run/status").write_text("0\n")
    ended = checkout.call("test")
    assert ended.returncode == 1
    assert "it lacks: concept: cost 28, optimal, 9 entries" in ended.stdout
    assert "its exit status is 2" in ended.stdout
    assert "lintim: 8 passed, 2 failed" in ended.stdout


def test_without_a_program_of_these_sources_the_rest_runs(checkout: Checkout) -> None:
    checkout.source.write_text("another\n")
    ended = checkout.call("test")
    assert (ended.returncode, ended.stderr) == (0, "")
    assert "left out: dist/lintim is not used, since it was proved of other sources" in ended.stdout
    assert ended.stdout.endswith("companion: with  \n3 passed, 0 failed\n3 passed, 0 failed\n")


def test_where_nothing_can_be_run(checkout: Checkout) -> None:
    (checkout.top / "dist/lintim").unlink()
    (checkout.top / "companion/check").unlink()
    ended = checkout.call("test")
    assert ended.returncode == 2 and ended.stdout.endswith("0 passed, 0 failed\n")
    ended = checkout.call("test", "lintim")
    assert (ended.returncode, ended.stdout) == (2, "")
    assert ended.stderr.startswith("test: rt is not on the PATH: ")


def test_it_is_said_what_would_be_installed(checkout: Checkout) -> None:
    shutil.copy(checkouts.HOME / "companion/check", checkout.top / "companion/check")
    shutil.copytree(
        checkouts.HOME / "companion/lintim_companion",
        checkout.top / "companion/lintim_companion",
        dirs_exist_ok=True,
    )

    def tool(name: str, text: str) -> None:
        (checkout.tools / name).write_text(f"#!/bin/sh\n{text}\n")
        (checkout.tools / name).chmod(0o755)

    ended = checkout.call("test", "--install")
    assert ended.returncode == 2 and len(ended.stderr.splitlines()) == 1
    assert ended.stderr.startswith(
        "test: there is no apt-get: these packages of Debian are missing"
    )
    assert ended.stderr.split(": ")[-1].split() == packages(False)
    tool("apt-get", f'echo "$*" >> {checkout.tools}/called')
    tool("id", "echo 1000")
    ended = checkout.call("test", "--install")
    assert ended.returncode == 2 and len(ended.stderr.splitlines()) == 1
    assert ended.stderr.startswith("test: only root may install: apt-get install black ")
    tool("sudo", '"$@"')
    tool("dpkg-query", 'case "$*" in *black*) echo installed ;; esac')
    assert checkout.call("test", "--install", "--all").returncode == 0
    called = (checkout.tools / "called").read_text().splitlines()
    assert called[0] == "update"
    wanted = [name for name in packages(True) if name != "black"]
    assert called[1].split() == ["install", "-y", "--no-install-recommends", *wanted]
    tool("dpkg-query", "echo installed")
    tool("apt-get", "exit 1")
    assert checkout.call("test", "--install").returncode == 0


def test_a_program_is_found_only_as_it_was_proved(
    checkout: Checkout, monkeypatch: pytest.MonkeyPatch
) -> None:
    monkeypatch.delenv("LINTIM", raising=False)
    monkeypatch.setenv("PATH", str(checkout.tools))
    monkeypatch.setattr(program, "CHECKOUT", checkout.top)
    monkeypatch.setattr(program, "GIVEN", checkout.top / "dist/lintim")
    assert program.find() == str(checkout.top / "dist/lintim")
    (checkout.top / "dist/lintim").write_text("#!/bin/sh\n")
    with pytest.raises(NoProgram, match="lintim is not found"):
        program.find()
    checkout.built.parent.mkdir(parents=True)
    shutil.copy(checkout.toolchain / "built", checkout.built)
    assert program.find() == str(checkout.built)


def test_a_tool_of_the_folder_where_one_stands_is_not_run(checkout: Checkout) -> None:
    for name in ("find", "readlink", "dirname", "sha256sum", "rt", "getconf"):
        (checkout.top / name).write_text(f"#!/bin/sh\ntouch {checkout.top}/ran\n")
        (checkout.top / name).chmod(0o755)
    for path in (f":.:{checkout.tools}", f"{checkout.tools}:", f"../top:{checkout.tools}:."):
        ended = checkout.call("lintim", "demo", "1", more={"PATH": path})
        assert ended.returncode == 0 and ended.stdout.endswith("done\n")
    assert not (checkout.top / "ran").exists()
