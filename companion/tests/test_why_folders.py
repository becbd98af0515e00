"""`lintim-why` on folders: names with blanks, and folders that may not be read."""

import os
from pathlib import Path

import pytest

from commands import run
from conftest import Folders
from lintim_companion.advice import links_told

pytestmark = pytest.mark.usefixtures("lintim")


def test_names_with_blanks_are_quoted(tmp_path: Path, example: Folders) -> None:
    (tmp_path / "above/my town/basis").mkdir(parents=True)
    told = run("lintim-why", tmp_path / "above").out
    assert told[-1] == "try: run `cd 'my town'`"
    told = run("lintim-why", example("three-stops"), "make", "a b/c").out
    assert told[-1] == "try: run `cd 'a b/c' && lintim make`"


def test_a_folder_that_may_not_be_read_is_named(
    example: Folders, monkeypatch: pytest.MonkeyPatch
) -> None:
    folder = example("market-town")
    real = os.access
    closed = folder / "delay-management"
    monkeypatch.setattr(os, "access", lambda path, mode: path != closed and real(path, mode))
    (told,) = links_told.no_files(folder)
    assert told.lines() == [
        "why: the folder delay-management may not be read",
        "try: run `chmod u+rx delay-management`",
    ]
