"""What made a row: versions, the commit and checksums."""

import functools
import hashlib
import importlib.metadata
import subprocess
from pathlib import Path

from .. import program
from ..faults import NoProgram
from ..version import VERSION

PACKAGE = Path(__file__).resolve().parents[1]


def _sha256(data: bytes) -> str:
    return hashlib.sha256(data).hexdigest()


def commit() -> str:
    """The commit of this checkout, with a `+` where files differ from it; empty where this is
    none."""
    words = ["git", "-C", str(program.CHECKOUT)]
    try:
        found = subprocess.run([*words, "rev-parse", "HEAD"], capture_output=True, text=True)
        changed = subprocess.run(
            [*words, "status", "--porcelain", "--untracked-files=no"],
            capture_output=True,
            text=True,
        )
    except OSError:
        return ""
    if found.returncode != 0:
        return ""
    return found.stdout.strip() + ("+" if changed.stdout else "")


@functools.cache
def made_by() -> dict[str, str]:
    """The columns that say what made a row: the versions of this package and of SciPy, in which
    HiGHS is, the commit, and the SHA-256 of `lintim` and of the modules of this package."""
    try:
        lintim = _sha256(Path(program.find()).read_bytes())
    except (NoProgram, OSError):
        lintim = ""
    modules = sorted(PACKAGE.rglob("*.py"))
    try:
        scipy = importlib.metadata.version("scipy")
    except importlib.metadata.PackageNotFoundError:
        scipy = ""
    return {
        "version": VERSION,
        "commit": commit(),
        "lintim_sha256": lintim,
        "companion_sha256": _sha256(b"".join(path.read_bytes() for path in modules)),
        "scipy": scipy,
    }
