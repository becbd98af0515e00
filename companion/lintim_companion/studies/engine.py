"""Snakemake runs the points of a study (J. Köster and S. Rahmann, Snakemake, a scalable
bioinformatics workflow engine, Bioinformatics 28, 2012)."""

import fcntl
import os
import shutil
import subprocess
import sys
from collections.abc import Callable
from pathlib import Path
from typing import NamedTuple

from .. import program, surroundings
from ..faults import Refused
from .plots import PAGE, write_page
from .point import row_of
from .study import Study, read
from .table import POINTS, TABLE, broken, good, read_row, remove_broken, see_folder, without_plan
from .table import write_row, write_table

HERE = program.CHECKOUT / "companion/studies"
SCRATCH = "scratch"
Say = Callable[[str], None]


class Way(NamedTuple):
    """How a study is run: on so many processors of this machine, or by Slurm with so many jobs at
    once; words that Snakemake gets beside."""

    cores: int = 1
    slurm: int = 0
    more: tuple[str, ...] = ()


def run(path: Path, into: Path, way: Way, say: Say) -> int:
    """Runs the points of a study that do not stand, and writes its table and its page: 1 where a
    point broke, else 0."""
    study, into = read(path), into.resolve()
    program.find()
    see_folder(into, study.name)
    with open(into / ".lock", "w") as lock:
        try:
            fcntl.flock(lock, fcntl.LOCK_EX | fcntl.LOCK_NB)
        except OSError:
            raise Refused(f"{into}: another run is at work there") from None
        shutil.rmtree(into / SCRATCH, ignore_errors=True)
        again = remove_broken(study, into)
        left = [name for name in study.points if read_row(into, name) is None]
        stand = len(study.points) - len(left)
        say(f"{study.name}: {len(study.points)} points, {stand} stand, {again} broken before")
        if left:
            _snakemake(path, into, way)
        return _told(study, into, say)


def _snakemake(path: Path, into: Path, way: Way) -> None:
    """Lets Snakemake run what is left. A job that is killed is tried twice more; what then has no
    row is told in the table."""
    where = [f"--cores={way.cores}"]
    if way.slurm:
        where = ["--slurm", f"--jobs={way.slurm}", "--max-status-checks-per-second=1"]
    words = [
        *("snakemake", "--snakefile", str(HERE / "Snakefile"), "--directory", str(into)),
        *("--config", f"study={path.resolve()}", f"python={sys.executable}"),
        *("--keep-going", "--rerun-incomplete", "--rerun-triggers", "mtime", "--retries", "2"),
        *("--nolock", "--scheduler", "greedy", *where, *way.more, "--", "points"),
    ]
    surroundings.settle()  # each job is a Python that Snakemake starts in the folder `into`
    environment = {**os.environ, "LINTIM": program.find(), "OMP_NUM_THREADS": "1"}
    environment.setdefault("USER", "nobody")  # which --slurm wants to be there
    (into / "snakemake.log").unlink(missing_ok=True)
    with open(into / "snakemake.log", "ab") as log:
        subprocess.run(words, stdout=log, stderr=subprocess.STDOUT, env=environment)


def _told(study: Study, into: Path, say: Say) -> int:
    """Writes table and page, and tells what became of the points."""
    rows = write_table(study, into)
    write_page(study, rows, into)
    for row in broken(rows):
        say(f"{study.name}: point {row['point']} broke: {row['fault']}")
    counts = len(good(rows)), len(without_plan(rows)), len(broken(rows))
    says = "{} good, {} without a plan, {} broken".format(*counts)
    say(f"{study.name}: {says}; see {TABLE} and {PAGE} in {into}")
    return 1 if broken(rows) else 0


def run_point(path: Path, into: Path, name: str) -> None:
    """Runs one point, as Snakemake wants it, and writes its row."""
    study = read(path)
    if name not in study.points:
        raise Refused(f"{path} has no point {name}: it was edited")
    scratch = into / SCRATCH / f"{name}.{os.uname().nodename}.{os.getpid()}"
    scratch.mkdir(parents=True)
    write_row(into, name, row_of(study.points[name], scratch, path.parent))


__all__ = ["POINTS", "Way", "run", "run_point"]
