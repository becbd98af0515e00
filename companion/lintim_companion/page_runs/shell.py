"""One shell for a page, in a copy of the pages and examples of a checkout."""

import os
import re
import shutil
import signal
import subprocess
import threading
from dataclasses import dataclass
from pathlib import Path

from .. import program
from ..faults import Refused

COPIED = ("README.md", "docs", "examples", "companion")
OTHERS = "dist/others.sh"
# Where the judge of periodic timetables stands: as it was built here, or as dist/ has it.
JUDGES = ("crates/pesp_program/out/pesp_program", "dist/pesp-judge")
SECONDS = 600
# What stands for the script `lintim` of a checkout: it sees first whose files would be taken.
STARTER = """#!/bin/sh
. "{others}"
case "$*" in
    "make --own" | "fresh --own") set -- "$1" ;;
    *) see_others "$@" ;;
esac
exec "{it}" "$@"
"""
# What comments may use: commands in a copy of the folder, so that it stays as the page left it.
HELP = """
TOP=$PWD
in_copy() { (
    copy=$(mktemp -d "$TMPDIR/copy.XXXXXX"); cp -r . "$copy/it"; cd "$copy/it"; eval "$1"
) }
row() { sed -i -e '$a\\' "$1"; echo "$2" >> "$1"; }
"""


@dataclass(frozen=True)
class Step:
    """What a block printed, its exit status, and the folder where the shell is after it."""

    status: int
    printed: str
    folder: Path


def copy_checkout(place: Path) -> Path:
    """Copies what the pages speak of, with a `lintim` at the top that runs the program."""
    top = place / "checkout"
    top.mkdir(parents=True)
    for name in COPIED:
        source = program.CHECKOUT / name
        if source.is_dir():
            shutil.copytree(source, top / name, ignore=shutil.ignore_patterns("__*", ".*"))
        else:
            shutil.copy(source, top / name)
    clean = ("keep", "waiting")  # what somebody left in the examples
    for folder in (top / "examples").iterdir():
        for name in clean:
            shutil.rmtree(folder / name, ignore_errors=True)
    for starter in (top / "lintim", place / "bin/lintim"):
        starter.parent.mkdir(exist_ok=True)
        starter.write_text(STARTER.format(others=program.CHECKOUT / OTHERS, it=program.find()))
        starter.chmod(0o755)
    judges = [program.CHECKOUT / name for name in JUDGES]
    for judge in [it for it in judges if os.access(it, os.X_OK)][:1]:
        (place / "bin/pesp-judge").symlink_to(judge)
    return top


class Shell:
    """A bash that runs block after block. What pages call `/tmp` is a folder of its own, and what
    comes is told with `/tmp` again."""

    def __init__(self, place: Path) -> None:
        self.place = place
        self.temporary = place / "tmp"
        self.temporary.mkdir(parents=True)
        self.printed, self.block = place / "printed", place / "block"
        top = copy_checkout(place)
        path = f"{place}/bin:{top}/companion/bin:{os.environ['PATH']}"
        self.process = subprocess.Popen(
            ["bash", "--noprofile", "--norc"],
            cwd=top,
            env={
                **{it: text for it, text in os.environ.items() if it != "LINTIM"},
                "PATH": path,
                "TMPDIR": str(self.temporary),
                "PYTHONDONTWRITEBYTECODE": "1",
                "PYTHONPATH": "",
            },
            stdin=subprocess.PIPE,
            stdout=subprocess.PIPE,
            text=True,
            start_new_session=True,
        )
        self.run(HELP)

    def run(self, commands: str) -> Step:
        """Runs a block, and waits for it."""
        assert self.process.stdin and self.process.stdout
        commands = re.sub(r"(?<![\w.])/tmp\b", str(self.temporary), commands)
        self.block.write_text(commands)
        self.process.stdin.write(
            f". '{self.block}' > '{self.printed}' 2>&1 < /dev/null\n"
            'printf "%s\\n%s\\n" "$?" "$PWD"\n'
        )
        self.process.stdin.flush()
        clock = threading.Timer(SECONDS, self.stop)
        clock.start()
        status, folder = self.process.stdout.readline(), self.process.stdout.readline()
        clock.cancel()
        if not folder:
            raise Refused(f"the shell ended, or took more than {SECONDS} seconds: {commands}")
        text = self.printed.read_text(errors="replace").replace(str(self.temporary), "/tmp")
        return Step(int(status), text, Path(folder.rstrip("\n")))

    def stop(self) -> None:
        """Ends the shell and what it started."""
        if self.process.poll() is None:
            os.killpg(self.process.pid, signal.SIGKILL)
            self.process.wait()
        for pipe in (self.process.stdin, self.process.stdout):
            if pipe and not pipe.closed and threading.current_thread() is threading.main_thread():
                pipe.close()
