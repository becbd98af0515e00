"""The walk of the page about feeds prints what the page shows."""

import os
import subprocess
from pathlib import Path

from lintim_companion import program
from test_pages import DOCS, blocks_of


def test_the_walk_of_the_page_about_feeds(tmp_path: Path, lintim: str) -> None:
    commands, shown, last = blocks_of(DOCS / "GTFS.md", "## A walk")
    (tmp_path / "bin").mkdir()
    (tmp_path / "bin/lintim").symlink_to(lintim)
    path = f"{tmp_path}/bin:{program.CHECKOUT}/companion/bin:{os.environ['PATH']}"
    ended = subprocess.run(
        ["bash", "-ec", commands.replace("/tmp/", f"{tmp_path}/")],
        cwd=program.CHECKOUT,
        env={**os.environ, "PATH": path, "LINTIM": lintim, "PYTHONDONTWRITEBYTECODE": "1"},
        capture_output=True,
        text=True,
    )
    assert (ended.returncode, ended.stderr) == (0, "")
    printed = ended.stdout.replace(f"{tmp_path}/", "/tmp/")
    assert shown in printed and printed.count(last) == 2
