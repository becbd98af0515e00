"""Files that would tell if they were run or read as settings, in the folder of a dataset: modules of
all names that a command loads, programs, and settings of libraries and tools."""

import re
import shutil
from collections.abc import Iterable
from pathlib import Path

IMPORTED = re.compile(r"^import time:.*\| +(\w+)", re.M)
OPENED = re.compile(r"= \d+<([^>]*)>")
STARTED = re.compile(r'\bexecve\("([^"]*)".*= 0$')
PROGRAMS = (
    "lintim", "cadical", "python3", "fc-list", "gcc", "cc", "ld", "ldconfig", "objdump", "git", "sh",
    "bash", "snakemake", "chromium", "uname", "lscpu",
)  # fmt: skip
SETTINGS = (
    "trap.pth", ".plotly/.config", ".plotly/.credentials", "pyproject.toml", "setup.cfg", "tox.ini",
    "mypy.ini", "pytest.ini", ".numba_config.yaml", "site.cfg", ".numpy-site.cfg", "Snakefile",
    "workflow/Snakefile", "profiles/default/config.yaml", "workflow/profiles/default/config.yaml",
    "config.yaml", "config/config.yaml", ".snakemake/config.yaml", "pyvenv.cfg", "python311._pth",
    ".python-version", ".env", ".netrc", ".git/config", ".ipynb_checkpoints/a-checkpoint.ipynb",
    "fonts.conf", ".matplotlib/matplotlibrc", ".config/matplotlib/matplotlibrc", "locale/argparse.mo",
)  # fmt: skip
SCRIPTS = (
    "sitecustomize", "usercustomize", "conftest", "jupyter_config", "jupyter_nbconvert_config",
    "ipython_config", "lintim_companion", "__init__", "__main__", "setup", "readline", "antigravity",
)  # fmt: skip
RC = "font.size: 77\nlines.linewidth: 33\naxes.prop_cycle: cycler('color', ['r'])\nbackend: nothing\n"


def loaded(times: str) -> set[str]:
    """The names of all modules, without the packages above them, that `-X importtime` tells."""
    return set(IMPORTED.findall(times))


def watched(log: Path) -> list[str]:
    """What starts a command so that a log tells what it opens, where strace is there."""
    looks = "trace=open,openat,openat2,execve"
    is_there = shutil.which("strace") is not None
    return ["strace", "-f", "-y", "-s", "4096", "-o", str(log), "-e", looks] if is_there else []


def set_traps(folder: Path, names: Iterable[str], ran: Path) -> set[Path]:
    """Writes the files into a folder; what is run writes its name to the file `ran`."""
    tells = f"with open({str(ran)!r}, 'a') as file:\n    print(__file__, file=file)\n"
    found = {folder / f"{name}.py": tells for name in (*names, *SCRIPTS)}
    for name in ("numpy", "scipy", "matplotlib", "multiprocessing"):
        found |= {folder / name / "__init__.py": tells, folder / name / "optimize.py": tells}
    found |= {folder / name: "trap\n" for name in SETTINGS}
    found[folder / "matplotlibrc"] = RC
    shell = f"#!/bin/sh\necho \"$0\" >> '{ran}'\nexit 10\n"
    for path, text in found.items():
        path.parent.mkdir(parents=True, exist_ok=True)
        path.write_text(text)
    for name in PROGRAMS:
        (folder / name).write_text(shell)
        (folder / name).chmod(0o755)
    return {*found, *(folder / name for name in PROGRAMS)}


def touched(log: Path, folder: Path) -> set[Path]:
    """The files that were opened or started, by the log of strace."""
    text = log.read_text(errors="replace")
    paths = [
        *OPENED.findall(text),
        *(path for line in text.splitlines() for path in STARTED.findall(line)),
    ]
    return {folder / path for path in paths}
