"""`./lintim` over the program of `dist/`: at once where it is of the sources that stand here, and with
one line where it is not."""

import os
import pwd
import re
import shutil
import subprocess
import time
from collections.abc import Callable
from pathlib import Path

import checkouts
import pytest
from checkouts import Checkout

pytestmark = [
    pytest.mark.usefixtures("lintim"),
    pytest.mark.skipif(not (checkouts.HOME / "dist").exists(), reason="this is no checkout"),
]


@pytest.fixture(scope="module")
def made(tmp_path_factory: pytest.TempPathFactory) -> Checkout:
    return checkouts.make(tmp_path_factory.mktemp("made"))


@pytest.fixture
def checkout(made: Checkout, tmp_path: Path) -> Checkout:
    return checkouts.copy(made, tmp_path)


def see_answer(ended: "subprocess.CompletedProcess[str]", *told: str) -> None:
    """Sees that the program answered, and that each line of the standard error has its text."""
    assert ended.returncode == 0, ended.stderr
    assert ended.stdout.endswith("statistic: 14 values\ndone\n")
    lines = ended.stderr.splitlines()
    assert len(lines) == len(told), lines
    assert all(text in line for text, line in zip(told, lines))


def see_line(ended: "subprocess.CompletedProcess[str]", says: str) -> None:
    """Sees that nothing was run, and that one line says why."""
    assert (ended.returncode, ended.stdout) == (1, "")
    assert len(ended.stderr.splitlines()) == 1 and says in ended.stderr, ended.stderr


def test_it_answers_without_rt_and_says_so_once(checkout: Checkout) -> None:
    see_answer(
        checkout.call("lintim", "demo", "1"),
        "lintim: this is dist/lintim, which kit-1 proved on 20",
    )
    see_answer(checkout.call("lintim", "demo", "1"))
    words = checkout.call("lintim", "nothing")
    assert words.returncode == 2 and words.stdout.startswith("usage: lintim make | ")


def test_what_was_built_here_comes_first(checkout: Checkout) -> None:
    see_answer(checkout.call("lintim", "demo", "1"), "this is dist/lintim")
    assert checkout.call("lintim", "--prove", rt=True).returncode == 0
    see_answer(checkout.call("lintim", "demo", "1"))
    (checkout.top / "dist/lintim").unlink()
    see_answer(checkout.call("lintim", "demo", "1"))


@pytest.mark.parametrize(
    "old, new, says",
    [
        (r"sha256: .", "sha256: x", "dist/PROVED does not say what it is"),
        (r"sha256: .{8}", "sha256: 00000000", "its sha256 is not the one that dist/PROVED has"),
        (r"sources: .{8}", "sources: 00000000", "it was proved of other sources than stand here"),
        (r"sources: .*\n", "", "dist/PROVED does not say what it is"),
        (r"program: lintim\n", "", "dist/PROVED does not say what it is"),
        (r"needs: .*\n", "", "it is for the processor , and this is"),
        (r"(?s).*", "", "dist/PROVED does not say what it is"),
        (r"(?s).*", "\0\xff" * 5000, "dist/PROVED does not say what it is"),
    ],
)
def test_an_edited_text(checkout: Checkout, old: str, new: str, says: str) -> None:
    path = checkout.top / "dist/PROVED"
    path.write_text(re.sub(old, new, path.read_text(), count=1), encoding="latin-1")
    see_line(checkout.call("lintim", "demo", "1"), f"dist/lintim is not used, since {says}")
    see_answer(
        checkout.call("lintim", "demo", "1", rt=True),
        says,
        *["proving and building 3 crates", "1 of 3", "2 of 3", "3 of 3"],
    )
    assert checkout.calls() == 1


def test_an_edited_program_does_not_run(checkout: Checkout) -> None:
    path = checkout.top / "dist/lintim"
    path.write_bytes(path.read_bytes()[:-1] + b"x")
    see_line(checkout.call("lintim", "demo", "1"), "its sha256 is not the one that dist/PROVED has")
    path.write_text("#!/bin/sh\ntouch ran\n")
    see_line(checkout.call("lintim", "demo", "1"), "its sha256 is not the one that dist/PROVED has")
    assert not (checkout.top / "ran").exists()
    path.unlink()
    see_line(checkout.call("lintim", "demo", "1"), "lintim: rt is not on the PATH: it is")


def test_a_program_that_may_not_be_run(checkout: Checkout) -> None:
    (checkout.top / "dist/lintim").chmod(0o644)
    see_line(checkout.call("lintim", "demo", "1"), "it is not marked as a program: chmod +x dist/")


def test_an_edited_source_is_built(checkout: Checkout) -> None:
    see_answer(checkout.call("lintim", "demo", "1"), "this is dist/lintim")
    checkout.source.write_text("another\n")
    see_line(checkout.call("lintim", "demo", "1"), "it was proved of other sources than stand here")
    ended = checkout.call("lintim", "demo", "1", rt=True)
    assert ended.returncode == 0
    assert ended.stderr.splitlines()[0].endswith("it was proved of other sources than stand here")
    see_answer(checkout.call("lintim", "demo", "1"))
    checkout.source.write_text("a third\n")
    ended = checkout.call("lintim", "demo", "1", rt=True)
    assert "building again, since" in ended.stderr and "lib.rt is newer" in ended.stderr
    assert checkout.calls() == 2


def test_a_source_that_only_changed_its_time_is_not_built_again(checkout: Checkout) -> None:
    checkout.source.touch()
    see_answer(checkout.call("lintim", "demo", "1"), "this is dist/lintim")
    checkout.source.touch()
    see_answer(checkout.call("lintim", "demo", "1", rt=True))
    assert checkout.call("lintim", "--prove", rt=True).returncode == 0
    for name in ("crates.txt", "HANDLES", "crates/lintim/src/lib.rt"):
        (checkout.top / name).touch()
        see_answer(checkout.call("lintim", "demo", "1", rt=True))
    assert checkout.calls() == 1


def edit(it: Checkout) -> None:
    before = it.source.stat()
    it.source.write_text("Plan_num src\n")
    os.utime(it.source, ns=(before.st_atime_ns, before.st_mtime_ns))


def put_in_place(it: Checkout) -> None:
    before = it.source.stat()
    other = it.source.with_name(".other")
    other.write_text("Plan_num src\n")
    os.utime(other, ns=(before.st_atime_ns, before.st_mtime_ns))
    other.rename(it.source)


@pytest.mark.parametrize(
    "change",
    [
        edit,
        put_in_place,
        lambda it: it.source.unlink(),
        lambda it: it.source.rename(it.source.with_name("main.rt")),
        lambda it: it.source.with_name("more.rt").touch(),
        lambda it: shutil.rmtree(it.top / "crates/lintim_cli/specs"),
        lambda it: it.rewrite("HANDLES", "none", "Net"),
        lambda it: it.rewrite("crates.txt", "plan_num itoa", "plan_num csv"),
    ],
)
def test_a_sum_is_taken_again_until_something_changes(
    checkout: Checkout, change: Callable[[Checkout], object]
) -> None:
    see_answer(checkout.call("lintim", "demo", "1"), "this is dist/lintim")
    time.sleep(1.1)  # what is younger than a second is looked at again
    see_answer(checkout.call("lintim", "demo", "1"))
    note = checkout.built.with_name("sources")
    text, when = note.read_text(), note.stat().st_mtime_ns
    note.write_text("0" * 64)
    os.utime(note, ns=(when, when))
    see_line(checkout.call("lintim", "demo", "1"), "it was proved of other sources than stand here")
    note.write_text(text)
    os.utime(note, ns=(when, when))
    see_answer(checkout.call("lintim", "demo", "1"))
    change(checkout)
    see_line(checkout.call("lintim", "demo", "1"), "it was proved of other sources than stand here")


def test_what_stands_there_again_is_taken_again(checkout: Checkout) -> None:
    text = checkout.source.read_text()
    checkout.source.write_text("another\n")
    assert checkout.call("lintim", "demo", "1", rt=True).returncode == 0
    checkout.source.write_text(text)
    see_answer(checkout.call("lintim", "demo", "1"), "this is dist/lintim")


def test_what_is_edited_while_it_is_built_is_built_again(checkout: Checkout) -> None:
    (checkout.toolchain / "meanwhile").write_text(f"echo edited > '{checkout.source}'\n")
    assert checkout.call("lintim", "--prove", rt=True).returncode == 0
    (checkout.toolchain / "meanwhile").unlink()
    ended = checkout.call("lintim", "demo", "1", rt=True)
    assert "building again, since" in ended.stderr and checkout.calls() == 2
    see_answer(checkout.call("lintim", "demo", "1", rt=True))


def test_a_program_of_the_gate_is_taken(checkout: Checkout) -> None:
    checkout.source.write_text("another\n")
    subprocess.run(
        ["rt", "ci"],
        cwd=checkout.top,
        check=True,
        capture_output=True,
        env={"PATH": f"{checkout.toolchain}:{checkout.tools}"},
    )
    see_answer(checkout.call("lintim", "demo", "1"))
    checkout.source.touch()
    see_answer(checkout.call("lintim", "demo", "1"))


@pytest.mark.parametrize("old", ["dist", "built"])
def test_without_sha256sum(checkout: Checkout, old: str) -> None:
    (checkout.tools / "sha256sum").unlink()
    if old == "built":
        assert checkout.call("lintim", "demo", "1", rt=True).returncode == 0
        see_answer(checkout.call("lintim", "demo", "1", rt=True))
        checkout.source.touch()
    see_line(
        checkout.call("lintim", "demo", "1"),
        "dist/lintim is not used, since it cannot be compared: sha256sum is missing",
    )


@pytest.mark.parametrize(
    "name, says, fault",
    [
        ("uname", "aarch64", "it is for the processor x86_64, and this is aarch64"),
        ("getconf", "glibc 2.31", "it needs glibc 2.34, and here is 2.31"),
        ("getconf", "", "it needs glibc 2.34, which is not here"),
    ],
)
@pytest.mark.skipif(os.uname().machine != "x86_64", reason="the program is for x86_64")
def test_another_system(checkout: Checkout, name: str, says: str, fault: str) -> None:
    (checkout.tools / name).unlink()
    (checkout.tools / name).write_text(f"#!/bin/sh\necho {says}\n")
    (checkout.tools / name).chmod(0o755)
    see_line(checkout.call("lintim", "demo", "1"), fault)
    assert checkout.call("lintim", "demo", "1", rt=True).stderr.splitlines()[0].endswith(fault)


@pytest.mark.skipif(os.getuid() != 0, reason="only root can be another user")
@pytest.mark.parametrize("told_before", [False, True])
def test_a_checkout_of_another_user(checkout: Checkout, told_before: bool) -> None:
    checkouts.give_to_others(checkout)
    if told_before:
        see_answer(checkout.call("lintim", "demo", "1"), "this is dist/lintim")
    before = sorted(checkout.top.rglob("*"))

    def call(*words: str, rt: bool = False) -> "subprocess.CompletedProcess[str]":
        return subprocess.run(
            [str(checkout.top / "lintim"), *words],
            capture_output=True,
            text=True,
            cwd="/",
            env={"PATH": f"{checkout.toolchain}:{checkout.tools}" if rt else str(checkout.tools)},
            user="nobody",
            group=pwd.getpwnam("nobody").pw_gid,
        )

    told = [] if told_before else ["this is dist/lintim"]
    see_answer(call("demo", "1"), *told)
    see_answer(call("demo", "1"), *told)
    assert sorted(checkout.top.rglob("*")) == before
    see_line(call("--prove", rt=True), "crates/lintim/out cannot be written, where the program is")
    checkout.source.write_text("another\n")
    see_line(call("demo", "1", rt=True), "it was proved of other sources than stand here")


@pytest.mark.skipif(os.getuid() != 0, reason="only root can be another user")
def test_root_leaves_no_folder_in_a_checkout_of_somebody(checkout: Checkout) -> None:
    for path in (checkout.top, *checkout.top.rglob("*")):
        os.chown(path, pwd.getpwnam("nobody").pw_uid, -1)
    before = sorted(checkout.top.rglob("*"))
    for _ in range(2):
        see_answer(checkout.call("lintim", "demo", "1"), "this is dist/lintim")
    assert sorted(checkout.top.rglob("*")) == before


def test_many_at_once(checkout: Checkout) -> None:
    def start(rt: bool) -> "subprocess.Popen[str]":
        return subprocess.Popen(
            [str(checkout.top / "lintim"), "demo", "1"],
            stdout=subprocess.PIPE,
            stderr=subprocess.PIPE,
            text=True,
            env={"PATH": f"{checkout.toolchain}:{checkout.tools}" if rt else str(checkout.tools)},
        )

    for rt in (False, True):
        running = [start(rt) for _ in range(8)]
        for it in running:
            out, err = it.communicate(timeout=120)
            assert it.returncode == 0, err
            assert out.endswith("done\n")
        checkout.source.write_text("another\n")
    left = {path.name for path in checkout.built.parent.iterdir()}
    assert checkout.calls() == 1
    assert left == {"build.log", "lintim", "lintim.proved", "lock", "sources", "told"}


def test_a_build_that_fails_leaves_what_was_there(checkout: Checkout) -> None:
    assert checkout.call("lintim", "--prove", rt=True).returncode == 0
    built = checkout.built.read_bytes()
    (checkout.toolchain / "fails").touch()
    ended = checkout.call("lintim", "--prove", rt=True)
    assert ended.returncode == 1 and "plan_num is not proved, see" in ended.stderr
    assert checkout.built.read_bytes() == built


def test_proving_again_tells_whether_the_bytes_are_the_same(checkout: Checkout) -> None:
    ended = checkout.call("lintim", "--prove")
    see_line(ended, "lintim: rt is not on the PATH: ")
    ended = checkout.call("lintim", "--prove", rt=True)
    assert (ended.returncode, checkout.calls()) == (0, 1)
    assert ended.stdout.endswith("dist/lintim is the same, byte for byte\n")
    assert checkout.call("lintim", "--prove", rt=True).returncode == 0 and checkout.calls() == 2
    (checkout.toolchain / "built").write_text("#!/bin/sh\n")
    ended = checkout.call("lintim", "--prove", rt=True)
    assert ended.returncode == 0
    assert "dist/lintim has other bytes than what kit-1 logic 1 built here" in ended.stdout
    (checkout.toolchain / "kit").write_text("kit-2 logic 2\n")
    ended = checkout.call("lintim", "--prove", rt=True)
    assert ended.returncode == 0 and "its bytes are not compared" in ended.stdout
    checkout.source.write_text("another\n")
    ended = checkout.call("lintim", "--prove", rt=True)
    assert ended.returncode == 0 and ended.stdout.endswith(
        "dist/lintim is not compared, since it was proved of other sources than stand here\n"
    )
    shutil.rmtree(checkout.built.parent)


def test_cleaning_leaves_the_program(checkout: Checkout) -> None:
    assert checkout.call("lintim", "--prove", rt=True).returncode == 0
    assert checkout.call("lintim", "--clean").returncode == 0
    left = {path.name for path in checkout.built.parent.iterdir()}
    assert left == {"lintim", "lintim.proved"}
    (checkout.top / "dist/lintim").unlink()
    checkout.source.touch()
    see_answer(checkout.call("lintim", "demo", "1"))


def with_all(it: Checkout) -> Checkout:
    """The same checkout with all that ./install takes."""
    left_out = shutil.ignore_patterns("__pycache__", ".hypothesis", "tests")
    for name in ("companion", "docs", "examples", "packaging"):
        shutil.copytree(checkouts.HOME / name, it.top / name, ignore=left_out, dirs_exist_ok=True)
    for name in ("README.md", "CHANGELOG.md", "CONTRIBUTING.md", "CITATION.cff"):
        shutil.copy(checkouts.HOME / name, it.top / name)
    return it


def test_what_is_installed_says_where_it_was_proved(checkout: Checkout, tmp_path: Path) -> None:
    with_all(checkout)
    everything = {"PATH": "/usr/bin:/bin"}
    words = ("install", "--prefix", str(tmp_path / "pre"))
    ended = checkout.call(*words, more=everything)
    assert ended.returncode == 0, ended.stderr
    starter = str(tmp_path / "pre/bin/lintim")
    told = subprocess.run([starter, "--version"], capture_output=True, text=True).stdout
    said = (checkout.top / "dist/PROVED").read_text()
    for key in ("kit", "sources", "proved"):
        value = re.findall(rf"^{key}: (.*)$", said, re.M)[0]
        assert re.search(rf"^{key} .*{re.escape(value)}", told, re.M)
    assert "by the gate; it is dist/lintim" in told
    demo = subprocess.run([starter, "demo", "1"], capture_output=True, text=True)
    assert demo.stdout.endswith("done\n")
    checkout.source.write_text("another\n")
    ended = checkout.call("install", "--prefix", str(tmp_path / "other"), more=everything)
    assert ended.returncode == 1 and not (tmp_path / "other").exists()
    first, last = ended.stderr.splitlines()
    assert "it was proved of other sources than stand here" in first
    assert last == "install: the program could not be built"
    rt = {"PATH": f"{checkout.toolchain}:/usr/bin:/bin"}
    assert checkout.call(*words, more=rt).returncode == 0
    told = subprocess.run([starter, "--version"], capture_output=True, text=True).stdout
    assert "kit kit-1 logic 1\n" in told and "proved here, by ./lintim or the gate" in told


@pytest.mark.skipif(not shutil.which("dpkg-deb"), reason="dpkg-deb is missing")
def test_a_package_for_debian_says_where_it_was_proved(checkout: Checkout, tmp_path: Path) -> None:
    with_all(checkout)
    words = ("install", "--deb", "--out", str(tmp_path))
    ended = checkout.call(*words, more={"PATH": "/usr/bin:/bin"})
    assert ended.returncode == 0, ended.stderr
    package = next(tmp_path.glob("lintim_*.deb"))
    subprocess.run(["dpkg-deb", "-x", package, tmp_path / "root"], check=True)
    installed = (tmp_path / "root/usr/lib/lintim/installed").read_text()
    assert "kit: kit-1 logic 1\n" in installed and "by the gate; it is dist/lintim\n" in installed
