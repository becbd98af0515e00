"""`lintim-why` over spoiled datasets: it ends without a traceback, and changes nothing."""

import hashlib
import os
import stat
from pathlib import Path

import pytest

import hostile
from commands import run

pytestmark = pytest.mark.usefixtures("lintim")


def state_of(folder: Path) -> dict[str, object]:
    """All that stands in a folder: kinds, links, times and bytes."""
    found: dict[str, object] = {}
    for path in sorted([folder, *folder.rglob("*")]):
        there = path.lstat()
        what: object = stat.S_IFMT(there.st_mode), there.st_mtime_ns
        if stat.S_ISREG(there.st_mode):
            what = what, hashlib.sha256(path.read_bytes()).hexdigest()
        elif stat.S_ISLNK(there.st_mode):
            what = what, os.readlink(path)
        found[str(path)] = what
    return found


def see(folder: Path, seed: int) -> int:
    """Whether the command ends well over the spoiled dataset of a number: its exit status."""
    hostile.write(folder, seed)
    before = state_of(folder)
    ended = run("lintim-why", folder, "--seconds", 10)
    assert state_of(folder) == before, seed
    assert ended.status in (0, 1), (seed, ended.out, ended.err)
    assert len(ended.err) <= 1 and not any("fault of this command" in it for it in ended.err), (
        seed,
        ended.err,
    )
    assert bool(ended.out) is (ended.status == 1 and not ended.err), (seed, ended.out, ended.err)
    assert all(line.startswith(("lintim make ends", "why: ", "try: ")) for line in ended.out), seed
    return ended.status


@pytest.mark.parametrize("seed", range(40))
def test_hostile_datasets(seed: int, tmp_path: Path) -> None:
    see(tmp_path / "it", seed)


@pytest.mark.long
def test_500_hostile_datasets(tmp_path: Path) -> None:
    told = sum(see(tmp_path / str(seed), seed) for seed in range(1000, 1500))
    print(f"something was told of {told}")
    assert told > 250
