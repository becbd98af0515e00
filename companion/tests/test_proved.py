"""`dist/update` and `dist/compare`: what stands in `dist/` was built of the sources beside it."""

import os
import re
import shutil
import subprocess
from collections.abc import Callable
from pathlib import Path

import checkouts
import pytest
from checkouts import KIT, Checkout

from lintim_companion.version import VERSION

pytestmark = [
    pytest.mark.usefixtures("lintim"),
    pytest.mark.skipif(not (checkouts.HOME / "dist").exists(), reason="this is no checkout"),
]
SAME = "dist/lintim is the same, byte for byte\n"


@pytest.fixture(scope="module")
def made(tmp_path_factory: pytest.TempPathFactory) -> Checkout:
    return checkouts.make(tmp_path_factory.mktemp("made"))


@pytest.fixture
def checkout(made: Checkout, tmp_path: Path) -> Checkout:
    return checkouts.copy(made, tmp_path)


def gate(it: Checkout) -> None:
    """Builds as `rt ci` does at the top."""
    subprocess.run(
        ["rt", "ci"],
        cwd=it.top,
        check=True,
        capture_output=True,
        env={"PATH": f"{it.toolchain}:{it.tools}"},
    )


def proved(it: Checkout) -> dict[str, str]:
    """What PROVED says, by its keys."""
    lines = (it.top / "dist/PROVED").read_text().splitlines()
    return dict(line.split(": ", 1) for line in lines)


def sources_of(it: Checkout) -> str:
    """The sum over the sources, computed anew."""
    code = 'home="$PWD"; . dist/sources.sh; sum_of_crate lintim'
    words = ["bash", "-c", code]
    ended = subprocess.run(
        words, cwd=it.top, capture_output=True, text=True, env={"PATH": str(it.tools)}
    )
    return ended.stdout


def test_the_text_says_what_the_program_is(checkout: Checkout) -> None:
    said = proved(checkout)
    assert said["program"] == said["crate"] == "lintim"
    assert (said["kit"], said["version"]) == (KIT, VERSION)
    program = (checkout.top / "dist/lintim").read_bytes()
    assert (
        said["bytes"] == f"{len(program)}"
        and program == (checkout.toolchain / "built").read_bytes()
    )
    assert said["needs"] == "x86_64, glibc 2.34" or os.uname().machine != "x86_64"
    assert re.match(r"20\d\d-\d\d-\d\d on .*, glibc 2\.\d+, \w+, .+", said["proved"])
    assert said["sources"] == sources_of(checkout).strip()


def test_writing_it_again_changes_nothing(checkout: Checkout) -> None:
    before = (checkout.top / "dist/PROVED").read_text()
    gate(checkout)
    assert checkout.call("dist/update", rt=True).returncode == 0
    assert (checkout.top / "dist/PROVED").read_text() == before
    names = {path.name for path in (checkout.top / "dist").iterdir()}
    assert names == {
        "PROVED",
        "compare",
        "lintim",
        "others.sh",
        "proved.sh",
        "sources.sh",
        "update",
    }


def test_further_programs_have_parts_of_their_own(checkout: Checkout) -> None:
    checkout.rewrite("dist/proved.sh", '("lintim lintim")', '("lintim lintim" "tests plan-judge")')
    (checkout.toolchain / "rt").write_text(
        checkouts.RT
        + "mkdir -p crates/tests/out; (cat $here/built; echo) > crates/tests/out/tests\n"
        "chmod +x crates/tests/out/tests\n"
    )
    gate(checkout)
    ended = checkout.call("dist/compare", rt=True)
    assert (
        ended.returncode == 1 and "dist/plan-judge does not pass, since it is not" in ended.stdout
    )
    assert checkout.call("dist/update", rt=True).returncode == 0
    parts = (checkout.top / "dist/PROVED").read_text().split("program: ")[1:]
    assert [it.splitlines()[:2] for it in parts] == [
        ["lintim", "crate: lintim"],
        ["plan-judge", "crate: tests"],
    ]
    sums = re.findall(r"sources: (.*)", "".join(parts))
    assert len(sums) == len(set(sums)) == 2
    assert checkout.call("dist/compare", rt=True).stdout == SAME + SAME.replace(
        "lintim", "plan-judge"
    )
    (checkout.top / "crates/tests/src/lib.rt").write_text("another\n")
    ended = checkout.call("dist/compare", rt=True)
    assert ended.returncode == 1 and ended.stdout.startswith(SAME)
    assert "dist/plan-judge does not pass, since it was proved of other sources" in ended.stdout
    ended = checkout.call("lintim", "demo", "1")
    assert ended.returncode == 0 and ended.stdout.endswith("done\n")


def test_a_second_machine_is_added(checkout: Checkout) -> None:
    checkout.rewrite("dist/PROVED", ", glibc 2", ", on a machine of old, glibc 2")
    gate(checkout)
    assert checkout.call("dist/update", rt=True).returncode == 0
    text = (checkout.top / "dist/PROVED").read_text()
    assert text.count("proved: ") == 2 and text.count("of old") == 1
    (checkout.toolchain / "built").write_bytes((checkout.top / "dist/lintim").read_bytes() + b"x")
    gate(checkout)
    ended = checkout.call("dist/compare", rt=True)
    assert ended.returncode == 1
    assert "dist/lintim has other bytes than what kit-1 logic 1 built here" in ended.stdout
    assert "had come out the same on 2 machines: " in ended.stdout
    assert checkout.call("dist/update", rt=True).returncode == 0
    assert (checkout.top / "dist/PROVED").read_text().count("proved: ") == 1
    assert checkout.call("dist/compare", rt=True).returncode == 0


def older(it: Checkout) -> None:
    gate(it)
    os.utime(it.built, (1, 1))


def edited(it: Checkout) -> None:
    assert it.call("lintim", "--prove", rt=True).returncode == 0
    it.source.write_text("another\n")
    os.utime(it.source, (1, 1))


def no_program(it: Checkout) -> None:
    (it.toolchain / "built").write_text("#!/bin/sh\n")
    gate(it)


def without_sha256sum(it: Checkout) -> None:
    gate(it)
    (it.tools / "sha256sum").unlink()


def unreadable(it: Checkout) -> None:
    gate(it)
    (it.top / "crates/plan_num/src/gone.rt").symlink_to("nowhere")


@pytest.mark.parametrize(
    "change, says",
    [
        (lambda it: None, "the program was never built: run rt ci at the top"),
        (older, " is newer than the program: run rt ci at the top, or ./lintim --prove"),
        (edited, "the sources are others than those that it was built of: run rt ci"),
        (no_program, "is no program for a processor that is known here"),
        (without_sha256sum, "sha256sum is missing"),
        (unreadable, "cannot be read"),
    ],
)
def test_what_is_not_of_the_sources_is_refused(
    checkout: Checkout, change: Callable[[Checkout], None], says: str
) -> None:
    before = checkouts.files_of(checkout.top / "dist")
    change(checkout)
    ended = checkout.call("dist/update", rt=True)
    assert (ended.returncode, ended.stdout) == (1, "")
    assert ended.stderr.startswith("dist/update: ") and says in ended.stderr
    assert len(ended.stderr.splitlines()) == 1
    assert checkouts.files_of(checkout.top / "dist") == before


def test_the_kit_has_to_be_known(checkout: Checkout) -> None:
    gate(checkout)
    ended = checkout.call("dist/update")
    assert ended.returncode == 1 and "it cannot be told which kit built" in ended.stderr
    assert checkout.call("lintim", "--prove", rt=True).returncode == 0
    (checkout.toolchain / "kit").write_text("kit-2 logic 2\n")
    assert checkout.call("dist/update", rt=True).returncode == 0
    assert proved(checkout)["kit"] == KIT


def test_the_gate_compares(checkout: Checkout) -> None:
    gate(checkout)
    ended = checkout.call("dist/compare", rt=True)
    assert (ended.returncode, ended.stdout, ended.stderr) == (0, SAME, "")
    (checkout.toolchain / "kit").write_text("kit-2 logic 2\n")
    shutil.rmtree(checkout.built.parent)
    gate(checkout)
    ended = checkout.call("dist/compare", rt=True)
    assert ended.returncode == 0
    assert "bytes are not compared, since it was built by kit-1 logic 1 and here is kit-2" in (
        ended.stdout
    )
    shutil.rmtree(checkout.built.parent)
    ended = checkout.call("dist/compare", rt=True)
    assert ended.returncode == 0
    assert "bytes are not compared, since the program was never built" in ended.stdout


def test_other_bytes_are_told_and_do_not_fail(checkout: Checkout) -> None:
    (checkout.toolchain / "built").write_bytes((checkout.top / "dist/lintim").read_bytes() + b"x")
    gate(checkout)
    ended = checkout.call("dist/compare", rt=True)
    assert ended.returncode == 0 and len(ended.stdout.splitlines()) == 1
    assert "dist/lintim has other bytes than what kit-1 logic 1 built here" in ended.stdout


def test_other_sources_fail_with_what_to_run(checkout: Checkout) -> None:
    dist = checkout.top / "dist"
    gate(checkout)

    def see(says: str) -> None:
        ended = checkout.call("dist/compare", rt=True)
        assert (ended.returncode, ended.stderr) == (1, "")
        assert says in ended.stdout and "run dist/update and commit dist/" in ended.stdout
        assert len(ended.stdout.splitlines()) == 1

    kept = checkout.source.read_text()
    checkout.source.write_text("another\n")
    see("it was proved of other sources than stand here")
    checkout.source.write_text(kept)
    checkout.rewrite("dist/PROVED", f"version: {VERSION}", "version: 0.9.9")
    see(f"dist/PROVED has the version 0.9.9, and this is {VERSION}")
    checkout.rewrite("dist/PROVED", "version: 0.9.9", f"version: {VERSION}")
    (dist / "lintim").write_bytes(b"x")
    see("its sha256 is not the one that dist/PROVED has")
    (dist / "lintim").unlink()
    see("it is not there")


def test_the_gate_ends_where_dist_is_of_other_sources(checkout: Checkout) -> None:
    gate_script = checkouts.HOME / ".ci/run"
    assert "rt ci || exit 1" in gate_script.read_text().splitlines()
    (checkout.top / ".ci").mkdir()
    shutil.copy(gate_script, checkout.top / ".ci/run")
    (checkout.top / "test").write_text('#!/bin/sh\necho "$*"\n')
    ended = checkout.call(".ci/run", rt=True)
    assert ended.returncode == 0 and ended.stdout.endswith(f"{SAME}companion\n")
    checkout.source.write_text("another\n")
    ended = checkout.call(".ci/run", rt=True)
    assert ended.returncode == 1 and ended.stdout.endswith("run dist/update and commit dist/\n")
    (checkout.toolchain / "fails").touch()
    ended = checkout.call(".ci/run", rt=True)
    assert ended.returncode == 1 and "dist" not in ended.stdout


def test_the_sum_is_of_contents_and_names_alone(checkout: Checkout, tmp_path: Path) -> None:
    wanted = sources_of(checkout)
    assert re.fullmatch(r"[0-9a-f]{64}\n", wanted)
    other = checkouts.copy(checkout, tmp_path / "other place")
    for number, path in enumerate(sorted((other.top / "crates").rglob("*"), reverse=True)):
        path.chmod(0o700 if path.is_dir() else 0o600)
        os.utime(path, (number, number))
    plan_num = other.top / "crates/plan_num"
    for name in ("must-fail/a.edit", "data/a", "stdout", "src/.lib.rt.swp", "src/lib.rt~"):
        (plan_num / name).parent.mkdir(exist_ok=True)
        (plan_num / name).write_text("no source")
    other.rewrite("crates.txt", "# Crates.", "# Others.")
    other.rewrite("crates.txt", "tests: plan_num", "tests: plan_num itoa\nmore_tests:")
    (other.top / "crates/tests/src/lib.rt").write_text("no source of the program")
    assert sources_of(other) == wanted


def add(it: Checkout) -> None:
    (it.top / "crates/plan_num/src/Ärger und mehr.rt").write_text("")


def rename(it: Checkout) -> None:
    (it.top / "crates/plan_num/proofs/Lib.antt").rename(it.top / "crates/plan_num/proofs/lib.antt")


@pytest.mark.parametrize(
    "change",
    [
        add,
        rename,
        lambda it: it.source.write_text(""),
        lambda it: it.source.unlink(),
        lambda it: (it.top / "crates/lintim_cli/specs/Lib.antt").unlink(),
        lambda it: (it.top / "HANDLES").write_text("Handles allowed: Net.\n"),
        lambda it: it.rewrite("crates.txt", "plan_num itoa", "itoa plan_num"),
    ],
)
def test_each_change_of_a_source_changes_the_sum(
    checkout: Checkout, change: Callable[[Checkout], None]
) -> None:
    before = sources_of(checkout)
    change(checkout)
    after = sources_of(checkout)
    assert re.fullmatch(r"[0-9a-f]{64}\n", after) and after != before


def test_the_sum_is_the_one_that_a_plain_look_finds() -> None:
    """The sum over the sources of this checkout, against a walk in Python."""
    from hashlib import sha256

    top = checkouts.HOME
    needs = {}
    for line in (top / "crates.txt").read_text().splitlines():
        name, _, rest = line.partition(":")
        needs[name] = [] if line.startswith("#") else rest.split()
    order: list[str] = []

    def walk(name: str) -> None:
        if name in needs and name not in order:
            for need in needs[name]:
                walk(need)
            order.append(name)

    walk("lintim")
    paths = ["HANDLES"]
    for name in order:
        for part in ("src", "specs", "proofs"):
            found = (top / "crates" / name / part).rglob("*")
            paths += [str(path.relative_to(top)) for path in found if path.is_file()]
    kept = [it for it in paths if not Path(it).name.startswith(".") and not it.endswith("~")]
    lines = [f"{sha256((top / it).read_bytes()).hexdigest()}  {it}" for it in sorted(kept)]
    lines += [f"{name}: {' '.join(needs[name])}" for name in order]
    ended = subprocess.run(
        ["bash", "-c", 'home="$PWD"; . dist/sources.sh; sum_of_crate lintim'],
        cwd=top,
        capture_output=True,
        text=True,
    )
    assert ended.stdout.strip() == sha256(("\n".join(lines) + "\n").encode()).hexdigest()
