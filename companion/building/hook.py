"""Puts the proved program of `dist/` into the wheel, as `bin/lintim`, and tells by the name of the
wheel for which processor and C library it is. Without a program the wheel is one for any system."""

import hashlib
import re
from pathlib import Path
from typing import Any

from hatchling.builders.hooks.plugin.interface import BuildHookInterface

DIST = Path(__file__).resolve().parents[2] / "dist"
NEEDS = re.compile(r"needs: (\w+), glibc (\d+)\.(\d+)")


def tag(said: str) -> str:
    """The tag of a wheel whose program needs what `PROVED` says."""
    needs = NEEDS.search(said)
    if needs is None:
        raise SystemExit(f"{DIST / 'PROVED'} does not say what system the program needs")
    processor, *glibc = needs.groups()
    return f"py3-none-manylinux_{'_'.join(glibc)}_{processor}"


class ProgramHook(BuildHookInterface):
    """Adds the program, where `PROVED` tells of these bytes."""

    def initialize(self, version: str, build_data: dict[str, Any]) -> None:
        program, text = DIST / "lintim", DIST / "PROVED"
        if not program.exists():
            return
        said = text.read_text()
        if f"sha256: {hashlib.sha256(program.read_bytes()).hexdigest()}\n" not in said:
            raise SystemExit(f"{program} is not the program of which {text} tells")
        build_data["pure_python"] = False
        build_data["tag"] = tag(said)
        shared = self.build_config.shared_data
        shared[str(program)] = "bin/lintim"
        shared[str(text)] = "share/doc/lintim/PROVED"
