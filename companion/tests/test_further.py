"""`tools/further` writes the rows with which the house grows, and what it writes is proved."""

import os
import shutil
import subprocess
from pathlib import Path

import pytest

TOP = Path(__file__).resolve().parents[2]
PYTHON = "/usr/bin/python3"
KEY = "key dm_extra --stage disposition --least 0 --greatest 100 --default 3 --unit minutes --says"
CRATES = (
    "plan_num",
    "plan_files",
    "text_fields",
    "tables",
    "giv_files",
    "config_keys",
    "table_tests",
)
PARTS = ("companion", "docs", "tools", *(f"crates/{name}" for name in CRATES))


@pytest.fixture
def checkout(tmp_path: Path) -> Path:
    """A copy of the checkout, with git, without what was built."""
    copy = tmp_path / "checkout"
    copy.mkdir()
    for part in PARTS:
        left_out = shutil.ignore_patterns("out", "__pycache__", ".hypothesis")
        shutil.copytree(TOP / part, copy / part, ignore=left_out)
    shutil.copy(TOP / "HANDLES", copy)
    rows = (TOP / "crates.txt").read_text().splitlines()
    lowest = [row for row in rows if row.split(":")[0] in CRATES[:-1]]
    (copy / "crates.txt").write_text("\n".join([*lowest, ""]))
    for words in (["init", "-q"], ["add", "-A"]):
        subprocess.run(["git", *words], cwd=copy, check=True)
    return copy


def further(checkout: Path, *words: str) -> "subprocess.CompletedProcess[str]":
    return subprocess.run(
        [PYTHON, "-P", checkout / "tools/further", *words], capture_output=True, text=True
    )


def changed(checkout: Path) -> list[str]:
    listed = ["git", "ls-files", "--modified", "--others"]
    told = subprocess.run(listed, cwd=checkout, capture_output=True, text=True, check=True)
    return sorted(line for line in told.stdout.splitlines() if "__pycache__" not in line)


def test_a_key_is_written_in_code_definitions_formats_and_pages(checkout: Path) -> None:
    told = further(checkout, *KEY.split(), "how long an extra change is waited for")
    assert told.returncode == 0, told.stderr
    assert changed(checkout) == [
        "companion/lintim_companion/formats.py",
        "crates/giv_files/specs/Keys.antt",
        "crates/giv_files/src/key.rt",
        "crates/table_tests/src/config_page.rt",
        "docs/SETTINGS.md",
    ]
    again = further(checkout, *KEY.split(), "again")
    assert again.returncode == 1 and "already" in again.stderr


def test_the_table_of_formats_has_the_new_key(checkout: Path) -> None:
    further(checkout, *KEY.split(), "how long an extra change is waited for")
    asks = "from lintim_companion.formats import Settings; print(Settings().dm_extra)"
    told = subprocess.run(
        [PYTHON, "-P", "-c", asks],
        env={**os.environ, "PYTHONPATH": str(checkout / "companion")},
        capture_output=True,
        text=True,
    )
    assert (told.stdout, told.stderr) == ("3\n", "")


def test_a_command_is_written_and_answers(checkout: Path, example: object) -> None:
    told = further(checkout, "command", "lintim-odd", "--says", "Says what is odd.")
    assert told.returncode == 0, told.stderr
    helps = subprocess.run(
        [PYTHON, checkout / "companion/bin/lintim-odd", "--help"], capture_output=True, text=True
    )
    assert helps.returncode == 0 and "Says what is odd." in helps.stdout


@pytest.mark.parametrize("what", ("column", "table", "stage", "question"))
def test_the_places_of_what_is_left_to_a_person_are_there(what: str) -> None:
    told = further(TOP, what)
    assert told.returncode == 0, told.stderr
    assert told.stdout.count("\n- ") >= 4


@pytest.mark.parametrize(
    "words, why",
    (
        ("key 1x --stage load --least 0 --greatest 1 --default 0 --unit u --says s", "letters"),
        ("key x --stage load --least 0 --greatest 1 --default 2 --unit u --says s", "default"),
        ("command odd --says s", "lintim-word"),
        ("command lintim-why --says s", "there already"),
    ),
)
def test_what_cannot_be_written_changes_nothing(checkout: Path, words: str, why: str) -> None:
    told = further(checkout, *words.split())
    assert told.returncode == 1 and why in told.stderr and told.stderr.count("\n") == 1
    assert changed(checkout) == []


@pytest.mark.long
@pytest.mark.parametrize(
    "words, crates",
    (
        ((*KEY.split(), "how long an extra change is waited for"), ("giv_files", "config_keys")),
        (("reason", "odd_row", "--says", "odd row"), ("tables",)),
    ),
)
def test_the_lowest_crates_are_proved_after_it(
    checkout: Path, words: tuple[str, ...], crates: tuple[str, ...]
) -> None:
    if not shutil.which("rt"):
        pytest.skip("rt is not on the PATH")
    assert further(checkout, *words).returncode == 0
    for crate in crates:
        folder = checkout / "crates" / crate
        subprocess.run(["rt", "fmt"], cwd=folder, check=True, capture_output=True)
        told = subprocess.run(["rt", "check"], cwd=folder, capture_output=True, text=True)
        assert told.returncode == 0, told.stdout[-2000:]
