"""`./install` among what a user has: nothing of it is changed, replaced or taken away."""

import os
import random
import shutil
import subprocess
from collections.abc import Callable
from pathlib import Path

import pytest

from lintim_companion import program

HOME = program.CHECKOUT
pytestmark = [
    pytest.mark.usefixtures("lintim"),
    pytest.mark.skipif(not (HOME / "install").exists(), reason="this is no checkout"),
]
Ended = subprocess.CompletedProcess[str]


def install(prefix: Path, *words: object, start: tuple[str, ...] = ()) -> Ended:
    said = [*start, HOME / "install", "--prefix", prefix, "--program", program.find(), *words]
    return subprocess.run(list(map(str, said)), capture_output=True, text=True, timeout=120)


def uninstall(prefix: Path) -> Ended:
    said = [str(prefix / "lib/lintim/install"), "--uninstall"]
    return subprocess.run(said, capture_output=True, text=True, timeout=120)


def seen(folder: Path) -> dict[str, str]:
    """All that stands below a folder: what is no folder by its text, and where links lead."""
    found = {}
    for path in sorted(folder.rglob("*")):
        kind = os.readlink(path) if path.is_symlink() else "folder" if path.is_dir() else ""
        name = str(path.relative_to(folder))
        found[name] = kind or path.read_bytes().decode("latin-1")
    return found


def one_line(ended: Ended) -> str:
    assert ended.returncode == 1 and len(ended.stderr.splitlines()) == 1, ended
    return ended.stderr.removeprefix("install: ").rstrip("\n")


@pytest.mark.parametrize("name", ["share", "lib", "bin", "share/doc", "share/man/man1"])
def test_a_file_where_a_folder_is_wanted_stays(name: str, tmp_path: Path) -> None:
    (tmp_path / "p" / name).parent.mkdir(parents=True)
    (tmp_path / "p" / name).write_text("mine\n")
    before = seen(tmp_path)
    line = one_line(install(tmp_path / "p"))
    assert line == f"{tmp_path}/p/{name} is no folder, so nothing was installed"
    assert seen(tmp_path) == before


def test_a_folder_or_a_dead_link_in_the_way_stays(tmp_path: Path) -> None:
    (tmp_path / "bin/lintim").mkdir(parents=True)
    assert "bin/lintim is a folder" in one_line(install(tmp_path))
    (tmp_path / "bin/lintim").rmdir()
    (tmp_path / "share").symlink_to("nowhere")
    before = seen(tmp_path)
    assert "share is no folder" in one_line(install(tmp_path)) and seen(tmp_path) == before


others = [
    pytest.param(name, marks=pytest.mark.long) for name in ("share", "share/man", "lib/lintim")
]


@pytest.mark.parametrize("name", ["bin", "lib", *others])
def test_a_link_to_a_folder_stays_and_is_followed(name: str, tmp_path: Path) -> None:
    home, prefix = tmp_path / "ho me", tmp_path / "ho me/.local"
    (prefix / name).parent.mkdir(parents=True)
    (home / "far/own").mkdir(parents=True)
    (home / "far/own/mine").write_text("mine")
    (prefix / name).symlink_to(home / "far/own")
    before = seen(tmp_path)
    for _ in range(2):
        assert install(prefix).returncode == 0
        assert (prefix / name).is_symlink() and len(seen(home / "far/own")) > 1
        for command in ("lintim", "lintim-waits"):
            said = [str(prefix / "bin" / command), "--help"]
            assert subprocess.run(said, capture_output=True).returncode == 0
    ended = uninstall(prefix)
    assert (ended.returncode, ended.stderr) == (0, "")
    assert seen(tmp_path) == before


def test_a_folder_that_became_a_link_is_not_followed(tmp_path: Path) -> None:
    prefix, mine = tmp_path / "pre", tmp_path / "mine"
    assert install(prefix).returncode == 0
    shutil.copytree(prefix / "share/doc/lintim/docs", mine)
    shutil.rmtree(prefix / "share/doc/lintim/docs")
    (prefix / "share/doc/lintim/docs").symlink_to(mine)
    before = seen(tmp_path)
    for ended in (uninstall(prefix), install(prefix)):
        says = f"{prefix}/share/doc/lintim/docs is a link that was none, so nothing was changed"
        assert one_line(ended) == says and seen(tmp_path) == before


@pytest.mark.parametrize(
    "row", ["file ../mine", "file lib/../../mine", "folder ../own", "file {0}/mine", "folder ./x"]
)
def test_a_list_that_leads_out_of_the_prefix_is_refused(row: str, tmp_path: Path) -> None:
    prefix = tmp_path / "pre"
    assert install(prefix).returncode == 0
    (tmp_path / "mine").write_text("mine")
    (tmp_path / "own").mkdir()
    with open(prefix / "lib/lintim/files", "a") as file:
        file.write(row.format(tmp_path) + "\n")
    before = seen(tmp_path)
    for ended in (uninstall(prefix), install(prefix)):
        assert "so nothing was changed" in one_line(ended) and seen(tmp_path) == before


def test_what_python_keeps_goes_away_and_nothing_else(tmp_path: Path) -> None:
    prefix = tmp_path / "pre"
    assert install(prefix).returncode == 0
    said = [str(prefix / "bin/lintim-waits"), "--help"]
    assert subprocess.run(said, capture_output=True).returncode == 0
    package = prefix / "lib/lintim/companion/lintim_companion"
    assert (package / "__pycache__").is_dir()
    mine = [
        package / "__pycache__/mine.txt",
        prefix / "lib/lintim/companion/own/__pycache__/notes.cpython-311.pyc",
        prefix / "bin/__pycache__/x.pyc",
        prefix / "share/mine",
    ]
    for path in mine:
        path.parent.mkdir(parents=True, exist_ok=True)
        path.write_text("mine")
    assert uninstall(prefix).returncode == 0
    assert sorted(path for path in prefix.rglob("*") if path.is_file()) == sorted(mine)


def test_a_file_that_was_changed_stays(tmp_path: Path) -> None:
    prefix = tmp_path / "pre"
    assert install(prefix).returncode == 0
    changed = {
        "share/doc/lintim/examples/market-town/basis/Config.cnf": "period_length; 20\n",
        "bin/lintim-why": "my own\n",
    }
    for name, text in changed.items():
        (prefix / name).unlink()
        (prefix / name).write_text(text)
    before = seen(prefix)
    assert "was changed, so nothing was installed" in one_line(install(prefix))
    assert seen(prefix) == before
    ended = uninstall(prefix)
    assert ended.returncode == 0 and ended.stdout.count("was changed, so it stays\n") == 2
    left = {name: text for name, text in seen(prefix).items() if text != "folder"}
    assert left == changed


@pytest.mark.skipif(os.geteuid() != 0, reason="only root can become somebody else")
def test_a_folder_that_may_not_be_written_is_seen_before(tmp_path: Path) -> None:
    for above in (tmp_path, *tmp_path.parents):
        if above.stat().st_uid == 0 and above not in (Path("/"), Path("/tmp")):
            above.chmod(0o755)
    prefix = tmp_path / "pre"
    (prefix / "share/man").mkdir(parents=True)
    for path in (prefix, prefix / "share"):
        os.chown(path, 65534, 65534)
    nobody = ("setpriv", "--reuid=65534", "--regid=65534", "--clear-groups")
    ended = install(prefix, start=nobody)
    if "Permission denied" not in ended.stderr:  # the checkout itself may be closed
        assert "share/man cannot be written" in one_line(ended)
    assert sorted(seen(prefix)) == ["share", "share/man"]


def test_where_there_is_no_room_the_old_one_stays(tmp_path: Path) -> None:
    """A file system of 3 MB takes one version, and not the next one beside it."""
    prefix = tmp_path / "pre"
    prefix.mkdir()
    words = ["mount", "-t", "tmpfs", "-o", "size=3m", "tmpfs", str(prefix)]
    if os.geteuid() != 0 or subprocess.run(words, capture_output=True).returncode != 0:
        pytest.skip("only root can mount a small file system")
    try:
        (prefix / "mine").write_bytes(b"mine" * 500_000)
        before = seen(prefix)
        assert "cannot be written, so nothing was installed" in one_line(install(prefix))
        assert seen(prefix) == before
    finally:
        subprocess.run(["umount", str(prefix)], check=True)


# A tree of few files is put below prefixes in which all kinds of things stand.
SCRIPT = """
give_up() { echo "install: $1" >&2; exit 1; }
. "$1"
prefix="$2"
case "$3" in
    put) read_list && see_list; see_free "$4"; put_tree "$4" ;;
    take) read_list || give_up none; see_list; look_at_owned; take_away ;;
esac
"""
PLACES = (
    "bin", "bin/one", "lib", "lib/lintim", "lib/lintim/files", "lib/lintim/part",
    "lib/lintim/part/two.py", "lib/lintim/part/__pycache__", "share", "share/doc", "share/doc/three",
    "share/doc/other", "elsewhere", "lib/lintim/part/__pycache__/two.cpython-311.pyc",
)  # fmt: skip


def tree_of(folder: Path, version: str) -> Path:
    """A tree as `install` writes it, of few files."""
    files = {"lib/lintim/part/two.py": version, "share/doc/three": "3", f"share/doc/{version}": "4"}
    for name, text in files.items():
        (folder / name).parent.mkdir(parents=True, exist_ok=True)
        (folder / name).write_text(text)
    (folder / "bin").mkdir()
    (folder / "bin/one").symlink_to("../lib/lintim/part/two.py")
    return folder


def disturb(chance: random.Random, top: Path) -> None:
    """Something of the user comes to stand at a place below the prefix `pre`, or out of it."""
    path = top / "pre" / chance.choice(PLACES)
    if any(it.is_symlink() or it.is_file() for it in path.parents) or path == top / "pre":
        return
    path.parent.mkdir(parents=True, exist_ok=True)
    kind = chance.randrange(4)
    if path.is_symlink() or path.is_file():
        path.unlink()
    elif path.is_dir():
        if kind != 2:
            return
        path.rename(top / f"moved{chance.random()}")
    if kind == 0:
        path.write_text(f"mine {chance.random()}")
    elif kind == 1:
        path.mkdir()
        (path / "mine").write_text(f"mine {chance.random()}")
    else:
        moved = sorted(it for it in top.iterdir() if it.name.startswith(("moved", "out")))
        path.symlink_to(chance.choice([*moved, Path("nowhere"), top / "out/file"]))


def outside(top: Path) -> dict[str, str]:
    """What stands out of the prefix, and what in it is plainly the user's."""
    return {
        name: text
        for name, text in seen(top).items()
        if not name.startswith("pre/") and text != "folder" or text.startswith("mine ")
    }


def one_trial(seed: int, top: Path, run: Callable[..., Ended]) -> None:
    """Puts and takes away, twice, while things of the user come to stand there."""
    chance = random.Random(seed)
    (top / "pre").mkdir(parents=True)
    (top / "out").mkdir()
    (top / "out/file").write_text("mine 0")
    trees = [tree_of(top / f"tree{it}", it) for it in "ab"]
    linked: set[str] = set()
    for step in range(5):
        for _ in range(chance.choice((0, 1, 1, 2))):
            disturb(chance, top)
        before, mine = seen(top / "pre"), outside(top)
        links = {name for name in before if (top / "pre" / name).is_symlink()}
        linked |= {name for name in links if (top / "pre" / name).is_dir()}
        words = ("put", trees[chance.randrange(2)]) if chance.random() < 0.6 else ("take",)
        ended = run(top / "pre", *words)
        after = outside(top)
        lost = {name: text for name, text in mine.items() if after.get(name) != text}
        # What was put into a folder that a link leads to may be taken away there again.
        lost = {name: text for name, text in lost.items() if text.startswith("mine ")}
        assert not lost, (seed, step, words, lost, ended.stderr)
        for name in links:
            is_folder = before[name] != "../lib/lintim/part/two.py"
            if is_folder and name in linked:
                assert (top / "pre" / name).is_symlink(), (seed, step, name)
        if ended.returncode != 0:
            assert len(ended.stderr.splitlines()) == 1, (seed, step, ended.stderr)
            assert seen(top / "pre") == before, (seed, step, words, ended.stderr)


def trials(folder: Path, count: int) -> None:
    def run(prefix: Path, *words: object) -> Ended:
        said = ["bash", "-c", SCRIPT, "install", HOME / "packaging/owned", prefix, *words]
        return subprocess.run(list(map(str, said)), capture_output=True, text=True, timeout=60)

    for seed in range(count):
        place = folder / str(seed)
        one_trial(seed, place, run)
        shutil.rmtree(place)


def test_nothing_of_a_user_goes_among_things_of_all_kinds(tmp_path: Path) -> None:
    trials(tmp_path, 40)


@pytest.mark.long
def test_nothing_of_a_user_goes_in_many_trials(tmp_path: Path) -> None:
    trials(tmp_path, 600)
