"""`./install`: what it puts below a prefix works anywhere, and goes away whole."""

import os
import pwd
import re
import shutil
import subprocess
from pathlib import Path

import pytest

from commands import PYTHON
from conftest import EXAMPLES
from lintim_companion import program
from lintim_companion.installing import completions, program_words
from lintim_companion.registry import COMMANDS
from lintim_companion.version import RELEASED, VERSION

HOME = program.CHECKOUT
SCRIPTS = (
    *("install", "lintim", "test", ".ci/run", "dist/update", "dist/compare", "dist/sources.sh"),
    *(
        "dist/proved.sh",
        "dist/others.sh",
        "packaging/debian",
        "packaging/owned",
        "packaging/wheel",
        "packaging/container",
    ),
)
pytestmark = [
    pytest.mark.usefixtures("lintim"),
    pytest.mark.skipif(not (HOME / "install").exists(), reason="this is no checkout"),
]


def call(*words: object, where: Path | None = None) -> "subprocess.CompletedProcess[str]":
    """Runs a tool to its end, within two minutes."""
    said = [str(word) for word in words]
    return subprocess.run(said, capture_output=True, text=True, timeout=120, cwd=where)


def install(prefix: Path, *words: object) -> "subprocess.CompletedProcess[str]":
    return call(HOME / "install", "--prefix", prefix, "--program", program.find(), *words)


@pytest.fixture(scope="module")
def prefix(tmp_path_factory: pytest.TempPathFactory) -> Path:
    """A prefix below which all is installed, which everyone may read."""
    folder = tmp_path_factory.mktemp("installed")
    for above in (folder, *folder.parents):
        if above.stat().st_uid == os.getuid() and above != Path("/tmp"):
            above.chmod(0o755)
    ended = install(folder / "pre")
    assert ended.returncode == 0, ended.stderr
    return folder / "pre"


def files_of(folder: Path) -> dict[str, bytes]:
    return {
        str(path.relative_to(folder)): path.read_bytes()
        for path in sorted(folder.rglob("*"))
        if path.is_file() and path.parent.name != "__pycache__"
    }


def without_times(told: str) -> str:
    """What a command told, without the seconds that it took."""
    return re.sub(r"in \d+\.\d s", "in S s", told)


def test_a_version_is_told(prefix: Path) -> None:
    told = call(prefix / "bin/lintim", "--version").stdout.splitlines()
    assert told[0] == f"lintim {VERSION}" and told[1].startswith("commit ")
    assert f"## {VERSION} " in (HOME / "CHANGELOG.md").read_text()
    card = (HOME / "CITATION.cff").read_text()
    assert f"version: {VERSION}\n" in card and f'date-released: "{RELEASED}"' in card
    installed = (prefix / "lib/lintim/installed").read_text()
    for word in ("version: ", "commit: ", "kit: ", "program: sha256 ", "proved: "):
        assert word in installed


def test_help_manual_and_usage_line_have_the_same_words(prefix: Path, tmp_path: Path) -> None:
    usage = call(prefix / "bin/lintim", where=tmp_path)
    assert usage.returncode == 2 and usage.stdout == program_words.usage_line() + "\n"
    helped = call(prefix / "bin/lintim", "--help").stdout
    page = (prefix / "share/man/man1/lintim.1").read_text()
    shells = [completions.bash(), completions.zsh(), completions.fish()["lintim"]]
    for word in program_words.PROGRAM_WORDS:
        assert f"  {word.usage} " in helped and f".It Cm {word.usage}\n" in page
        assert all(word.name in text and word.usage.split()[-1] for text in shells)
    readme = (HOME / "README.md").read_text()
    for status, _ in program_words.PROGRAM_STATUSES:
        assert f"| {status} |" in readme


def test_what_is_no_word_of_the_starter_is_handed_on(prefix: Path, tmp_path: Path) -> None:
    for words in (("--help", "make"), ("--nothing",), ("make", "--version")):
        assert call(prefix / "bin/lintim", *words, where=tmp_path).returncode == 2


@pytest.mark.skipif(os.getuid() != 0, reason="only root can be another user")
def test_another_user_without_anything_gets_the_answers_of_the_checkout(
    prefix: Path, tmp_path: Path
) -> None:
    user = pwd.getpwnam("nobody")
    own = Path(shutil.copytree(EXAMPLES / "market-town", prefix.parent / "town"))
    here = Path(shutil.copytree(EXAMPLES / "market-town", tmp_path / "town"))
    for path in (own, *own.rglob("*")):
        os.chown(path, user.pw_uid, user.pw_gid)

    def as_nobody(name: str, *words: str) -> tuple[int, str]:
        ended = subprocess.run(
            ["/usr/bin/env", "-i", str(prefix / "bin" / name), *words],
            capture_output=True,
            text=True,
            cwd=own,
            user="nobody",
            group=user.pw_gid,
            timeout=300,
        )
        return ended.returncode, ended.stdout

    for words in (["demo", "3"], ["make"], ["check"], ["journey", "1", "2", "420", "planned"]):
        answer = program.run(here, *words)
        assert as_nobody("lintim", *words) == (answer.status, answer.out)
    for command in COMMANDS:
        assert as_nobody(command.name, "--help")[0] == 0
        name, *words = command.example.split()
        ended = subprocess.run(
            [*PYTHON, str(HOME / "companion/bin" / name), *words],
            capture_output=True,
            text=True,
            cwd=here,
            env={**os.environ, "LINTIM": program.find(), "PYTHONDONTWRITEBYTECODE": "1"},
        )
        status, told = as_nobody(name, *words)
        assert (status, without_times(told)) == (ended.returncode, without_times(ended.stdout))
    assert files_of(own) == files_of(here)


def test_uninstall_takes_exactly_that_away(tmp_path: Path) -> None:
    prefix = tmp_path / "with space" / "pre"
    (prefix / "bin").mkdir(parents=True)
    (prefix / "bin/mine").write_text("mine")
    for _ in range(2):
        assert install(prefix).returncode == 0
    mine = prefix / "share/doc/lintim/mine"
    mine.write_text("mine")
    call(*PYTHON[:2], prefix / "bin/lintim-waits", "--help")
    ended = call(prefix / "lib/lintim/install", "--uninstall")
    assert ended.returncode == 0, ended.stderr
    left = sorted(path for path in prefix.rglob("*") if path.is_file())
    assert left == [prefix / "bin/mine", mine]
    mine.unlink()
    again = tmp_path / "new"
    assert install(again).returncode == 0
    assert call(HOME / "install", "--uninstall", "--prefix", again).returncode == 0
    assert not again.exists()
    ended = call(HOME / "install", "--uninstall", "--prefix", again)
    assert ended.returncode == 1 and ended.stderr.startswith("install: nothing is installed below")


def test_a_file_of_someone_else_stays(tmp_path: Path) -> None:
    (tmp_path / "bin").mkdir()
    (tmp_path / "bin/lintim").write_text("mine")
    ended = install(tmp_path)
    assert ended.returncode == 1
    assert ended.stderr == (
        f"install: {tmp_path}/bin/lintim is of someone else, so nothing was installed\n"
    )
    assert [path.name for path in tmp_path.rglob("*")] == ["bin", "lintim"]


def test_wrong_words_are_one_line(tmp_path: Path) -> None:
    there = ("--program", program.find())
    (tmp_path / "file").write_text("")
    for words, says in (
        (("--prefix",), "--prefix wants a word after it"),
        (("--prefix", ""), "--prefix wants a word after it"),
        (("--nothing",), "--nothing is no word of it"),
        (("--program", tmp_path / "none"), "none is no program"),
        (("--program", tmp_path), "is no program"),
        ((*there, "--prefix", tmp_path / "file/pre"), "file/pre cannot be written"),
        ((*there, "--deb", "--out", tmp_path / "file"), "file cannot be written"),
    ):
        ended = call(HOME / "install", *words)
        assert ended.returncode == 1 and says in ended.stderr
        assert len(ended.stderr.splitlines()) == 1


def test_what_was_stopped_in_the_middle_is_taken_away_too(tmp_path: Path) -> None:
    prefix = tmp_path / "pre"
    assert install(prefix).returncode == 0
    shutil.rmtree(prefix / "lib/lintim/companion")
    shutil.rmtree(prefix / "share")
    ended = call(HOME / "install", "--uninstall", "--prefix", prefix)
    assert (ended.returncode, ended.stderr) == (0, "") and not prefix.exists()


def checkout(folder: Path, rt: str) -> Path:
    """A checkout of one crate, whose program is older than its source, and a `rt` of its own."""
    (folder / "crates/lintim/src").mkdir(parents=True)
    (folder / "crates/lintim/out").mkdir()
    (folder / "crates.txt").write_text("lintim:\n")
    (folder / "HANDLES").write_text("Handles allowed: none.\n")
    old = folder / "crates/lintim/out/lintim"
    for name, text in (("crates/lintim/out/lintim", "echo old"), ("tools/rt", rt)):
        (folder / name).parent.mkdir(exist_ok=True)
        (folder / name).write_text(f"#!/bin/sh\n{text}\n")
        (folder / name).chmod(0o755)
    os.utime(old, (1, 1))
    (folder / "crates/lintim/src/main.rt").write_text("")
    (folder / "dist").mkdir()
    for name in ("lintim", "dist/sources.sh", "dist/proved.sh", "dist/others.sh"):
        shutil.copy(HOME / name, folder / name)
    return folder / "lintim"


def call_script(script: Path, path: str) -> "subprocess.CompletedProcess[str]":
    tools = f"{script.parent}/{path}:/usr/bin:/bin"
    return subprocess.run(
        [str(script), "make"], capture_output=True, text=True, timeout=60, env={"PATH": tools}
    )


def test_the_script_of_a_checkout_keeps_the_old_program(tmp_path: Path) -> None:
    script = checkout(tmp_path, "exit 1")
    ended = call_script(script, "tools")
    assert ended.returncode == 1 and ended.stdout == ""
    assert "building again, since" in ended.stderr and "main.rt is newer" in ended.stderr
    assert "lintim is not proved" in ended.stderr
    assert (tmp_path / "crates/lintim/out/lintim").read_text() == "#!/bin/sh\necho old\n"


def test_the_script_of_a_checkout_says_that_rt_is_missing(tmp_path: Path) -> None:
    script = checkout(tmp_path, "exit 1")
    ended = call_script(script, "nothing")
    assert ended.returncode == 1 and ended.stdout == ""
    assert ended.stderr.startswith("lintim: rt is not on the PATH: ")
    assert len(ended.stderr.splitlines()) == 1


def test_a_copy_of_the_script_says_so(tmp_path: Path) -> None:
    shutil.copy(HOME / "lintim", tmp_path / "lintim")
    ended = call_script(tmp_path / "lintim", "nothing")
    assert ended.returncode == 1 and "has no crates" in ended.stderr


@pytest.mark.skipif(not shutil.which("shellcheck"), reason="shellcheck is missing")
def test_scripts_are_taken_by_shellcheck(prefix: Path) -> None:
    ended = call("shellcheck", "-x", *SCRIPTS, prefix / "bin/lintim", where=HOME)
    assert ended.returncode == 0, ended.stdout
    ended = call("shellcheck", "-s", "bash", prefix / "share/bash-completion/completions/lintim")
    assert ended.returncode == 0, ended.stdout


@pytest.mark.skipif(not shutil.which("mandoc"), reason="mandoc is missing")
def test_manual_pages_are_taken_by_mandoc(prefix: Path) -> None:
    for page in sorted((prefix / "share/man/man1").iterdir()):
        ended = call("mandoc", "-T", "lint", "-W", "warning", page)
        assert (ended.returncode, ended.stdout) == (0, ""), page


@pytest.mark.skipif(not shutil.which("dpkg-deb"), reason="dpkg-deb is missing")
def test_a_package_for_debian_has_the_same_files(prefix: Path, tmp_path: Path) -> None:
    ended = call(HOME / "install", "--deb", "--out", tmp_path, "--program", program.find())
    assert ended.returncode == 0, ended.stderr
    package = tmp_path / f"lintim_{VERSION}_amd64.deb"
    assert call("dpkg-deb", "-x", package, tmp_path / "root").returncode == 0
    starter = tmp_path / "root/usr/bin/lintim"
    assert call(starter, "--version").stdout.startswith(f"lintim {VERSION}\n")
    assert starter.read_bytes() == (prefix / "bin/lintim").read_bytes()
    card = call("dpkg-deb", "-f", package, "Recommends").stdout
    for command in COMMANDS:
        assert all(it.apt in card for it in command.packages)
    if shutil.which("lintian"):
        told = call("lintian", "--allow-root", "--fail-on", "error", package)
        assert told.returncode == 0, told.stdout
