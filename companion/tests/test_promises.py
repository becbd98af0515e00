"""The page of what is proved prints its definitions as they stand, and counts them rightly."""

import re
import subprocess
from pathlib import Path

import pytest

PYTHON = "/usr/bin/python3"
TOP = Path(__file__).resolve().parents[2]
SPECS = TOP / "crates" / "stage_driver" / "specs"
PAGE = (TOP / "docs" / "PROVED.md").read_text()
PRINTED = re.findall(r"```\n-- (\w+\.antt)\n(.*?)```", PAGE, re.S)


def test_the_two_records_are_printed() -> None:
    heads = [text for _file, text in PRINTED if text.count("pub record") == 1]
    assert any("record PlansAreFeasible" in text for text in heads)
    assert any("record PlansAreBest" in text for text in heads)


@pytest.mark.parametrize(("file", "text"), PRINTED)
def test_a_printed_definition_stands_there(file: str, text: str) -> None:
    assert text in (SPECS / file).read_text()


def counted(*words: str) -> tuple[str, str, str]:
    """How many definitions, lines and files stand below the two records."""
    told = subprocess.run(
        [PYTHON, "-P", TOP / "tools/promises", *words], capture_output=True, text=True, check=True
    )
    found = re.fullmatch(r"(\d+) definitions, (\d+) lines, (\d+) files\n", told.stdout)
    assert found is not None
    return found[1], f"{int(found[2]):,}", found[3]


def test_a_reader_has_few_definitions_to_read() -> None:
    definitions, lines, files = counted()
    assert int(definitions) <= 80 and int(lines) <= 280
    sentence = f"stand {definitions} definitions of {lines} lines in {files} files"
    assert sentence in " ".join(PAGE.split())


def test_what_the_files_are_taken_for_is_told() -> None:
    definitions, lines, files = counted("--problems")
    assert f"{definitions} definitions of {lines} lines in {files} files" in " ".join(PAGE.split())
    assert f"all together are {counted('--read')[0]} definitions" in " ".join(PAGE.split())


def test_the_worked_examples_are_those_of_the_sources() -> None:
    script = TOP / "tools/worked-examples"
    printed = subprocess.run([PYTHON, "-P", script], capture_output=True, text=True, check=True)
    assert printed.stdout == (TOP / "docs/WORKED-EXAMPLES.md").read_text()
