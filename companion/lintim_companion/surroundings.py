"""What a command takes from its surroundings: programs and settings, and none from the folder where
one stands, which may be the dataset of a stranger.

Python is started without that folder in its path. A variable that lists folders, as `PATH`, names
it too where an entry is empty or does not begin with `/`: such entries are left out. matplotlib
looks for `matplotlibrc` there before all other places, and evaluates parts of it: it is imported in
a folder of this package, whose file it finds first.
"""

import os
import sys
from collections.abc import Iterator
from contextlib import contextmanager
from pathlib import Path

SETTINGS = Path(__file__).resolve().parent / "pictures" / "settings"  # has a `matplotlibrc`
LISTS = ("PATH", "PYTHONPATH")


def settle() -> None:
    """Lets no program and no module be found in the current folder, here and in what is started
    from here."""
    for name in LISTS:
        if name in os.environ:
            folders = os.environ[name].split(os.pathsep)
            os.environ[name] = os.pathsep.join(it for it in folders if os.path.isabs(it))
    if not os.environ.get("PATH"):
        os.environ["PATH"] = os.defpath
    os.environ["PYTHONSAFEPATH"] = "1"


def python(*words: str) -> list[str]:
    """The words that start a further Python, which is as isolated as this one."""
    keeps = ["-B"] if sys.dont_write_bytecode else []
    return [sys.executable, "-I" if sys.flags.isolated else "-P", *keeps, *words]


@contextmanager
def own_settings() -> Iterator[None]:
    """Stands in a folder of this package, while a library looks for its settings."""
    before = os.open(".", os.O_PATH | os.O_DIRECTORY)
    try:
        os.chdir(SETTINGS)
        yield
    finally:
        os.fchdir(before)
        os.close(before)
