"""A small checkout with a program in `dist/`, and a toolchain whose `rt` builds what it is told
to."""

import os
import shutil
import subprocess
from collections.abc import Mapping
from dataclasses import dataclass
from pathlib import Path

from lintim_companion import program

HOME = program.CHECKOUT
SCRIPTS = (
    *("lintim", "test", "install"),
    *("dist/sources.sh", "dist/proved.sh", "dist/others.sh", "dist/update"),
)
CRATES = {
    "lintim": "lintim_cli",
    "lintim_cli": "plan_num itoa",
    "plan_num": "",
    "tests": "plan_num",
}
KIT = "kit-1 logic 1"
# It proves whatever it is given, and builds the program that stands beside it.
RT = """#!/bin/sh
here="$(dirname "$(readlink -f "$0")")"
if [ "$1" = version ]; then cat "$here/kit"; exit; fi
echo "$*" >> "$here/calls"
if [ -e "$here/meanwhile" ]; then . "$here/meanwhile"; fi
if [ -e "$here/fails" ]; then echo "rt: plan_num NOT PROVED"; exit 1; fi
mkdir -p crates/lintim/out
cp "$here/built" crates/lintim/out/lintim
for name in plan_num lintim_cli lintim; do echo "rt: $name proved"; done
"""
# What the scripts use of a system, beside bash.
TOOLS = (
    *("awk", "basename", "cat", "chmod", "cmp", "cp", "cut", "date", "dirname", "env", "find"),
    *("flock", "getconf", "grep", "head", "install", "ls", "mkdir", "mktemp", "mv", "nproc", "od"),
    *("paste", "readlink", "rm", "sed", "sh", "sha256sum", "sleep", "sort", "tail", "tee", "touch"),
    *("tr", "uname", "wc", "xargs", "bash"),
)


@dataclass(frozen=True)
class Checkout:
    """A checkout, and the folders of its tools: those of the system, and `rt`."""

    top: Path
    tools: Path
    toolchain: Path

    @property
    def built(self) -> Path:
        """Where the program is built."""
        return self.top / "crates/lintim/out/lintim"

    @property
    def source(self) -> Path:
        """A source of a crate that the program stands on."""
        return self.top / "crates/plan_num/src/lib.rt"

    def call(
        self, *words: str, rt: bool = False, more: Mapping[str, str] | None = None
    ) -> "subprocess.CompletedProcess[str]":
        """Runs a script of the checkout in an environment with nothing but its tools."""
        path = f"{self.toolchain}:{self.tools}" if rt else str(self.tools)
        return subprocess.run(
            [str(self.top / words[0]), *words[1:]],
            capture_output=True,
            text=True,
            timeout=120,
            cwd=self.top,
            env={"PATH": path, **(more or {})},
        )

    def rewrite(self, name: str, old: str, new: str) -> None:
        """Changes a text of the checkout."""
        text = (self.top / name).read_text()
        assert old in text
        (self.top / name).write_text(text.replace(old, new))

    def calls(self) -> int:
        """How often `rt` has proved."""
        found = self.toolchain / "calls"
        return len(found.read_text().splitlines()) if found.exists() else 0


def write_crates(top: Path) -> None:
    """Writes crates of one source each."""
    for name in CRATES:
        for part, file in (("src", "lib.rt"), ("specs", "Lib.antt"), ("proofs", "Lib.antt")):
            path = top / "crates" / name / part / file
            path.parent.mkdir(parents=True)
            path.write_text(f"{name} {part}\n")
    lines = ["# Crates.", *(f"{name}: {needs}".rstrip() for name, needs in CRATES.items())]
    (top / "crates.txt").write_text("\n".join(lines) + "\n")
    (top / "HANDLES").write_text("Handles allowed: none.\n")


def write_toolchain(folder: Path) -> None:
    """Writes a `rt` that builds the real program."""
    folder.mkdir()
    (folder / "rt").write_text(RT)
    (folder / "rt").chmod(0o755)
    (folder / "kit").write_text(f"{KIT}\n")
    shutil.copy(program.find(), folder / "built")


def make(folder: Path) -> Checkout:
    """Makes a checkout whose `dist/` holds the program that its `rt` builds."""
    it = Checkout(folder / "top", folder / "tools", folder / "toolchain")
    it.top.mkdir(parents=True)
    it.tools.mkdir()
    for name in TOOLS:
        found = shutil.which(name, path="/usr/bin:/bin")
        assert found, name
        (it.tools / name).symlink_to(found)
    write_crates(it.top)
    write_toolchain(it.toolchain)
    for name in (*SCRIPTS, "dist/compare", "companion/lintim_companion/version.py"):
        (it.top / name).parent.mkdir(parents=True, exist_ok=True)
        shutil.copy(HOME / name, it.top / name)
    ended = it.call("lintim", "demo", "1", rt=True)
    assert ended.returncode == 0, ended.stderr
    ended = it.call("dist/update", rt=True)
    assert ended.returncode == 0, ended.stderr
    (it.toolchain / "calls").unlink()
    shutil.rmtree(it.top / "crates/lintim/out")
    return it


def copy(it: Checkout, folder: Path) -> Checkout:
    """A checkout of its own, as another one was when it was made."""
    shutil.copytree(it.top.parent, folder, symlinks=True, dirs_exist_ok=True)
    return Checkout(folder / "top", folder / "tools", folder / "toolchain")


def files_of(folder: Path) -> dict[str, bytes]:
    """The files of a folder, with what they hold."""
    return {
        str(path.relative_to(folder)): path.read_bytes()
        for path in sorted(folder.rglob("*"))
        if path.is_file()
    }


def give_to_others(it: Checkout) -> None:
    """Lets another user read all of it, and the folders above."""
    for above in (it.top, *it.top.parents):
        if above.stat().st_uid == os.getuid() and above != Path("/tmp"):
            above.chmod(0o755)
