"""The page of the architecture draws two towers, and the one of mathematics stands on no file."""

import re
import subprocess
from pathlib import Path

TOP = Path(__file__).resolve().parents[2]
RULER = re.compile(r" {4}-+( +)-+")


def libraries() -> dict[str, set[str]]:
    """The crates that each crate of the repository names in crates.txt."""
    lines = [
        line
        for line in (TOP / "crates.txt").read_text().splitlines()
        if ":" in line and line[:1] != "#"
    ]
    named = {line.partition(":")[0]: line.partition(":")[2].split() for line in lines}
    return {crate: {word for word in words if word in named} for crate, words in named.items()}


def towers() -> tuple[set[str], set[str]]:
    """The crates of the left and of the right tower."""
    left, right = set[str](), set[str]()
    lines = (TOP / "docs" / "ARCHITECTURE.md").read_text().splitlines()
    rulers = [place for place, line in enumerate(lines) if RULER.fullmatch(line)]
    column = lines[rulers[0]].rindex(" ") + 1
    for line in lines[rulers[0] + 1 : rulers[1]]:
        left.update(re.findall(r"\w+", line[:column]))
        right.update(re.findall(r"\w+", line[column:]))
    return left & libraries().keys(), right & libraries().keys()


def test_mathematics_stands_on_mathematics_alone() -> None:
    _left, right = towers()
    assert len(right) >= 10
    for crate in sorted(right):
        assert libraries()[crate] <= right | {"plan_num"}, crate


def test_no_crate_stands_in_both_towers() -> None:
    left, right = towers()
    assert {"giv_files", "tables", "text_fields"} <= left
    assert not left & right


def test_the_map_of_the_crates_is_that_of_their_heads() -> None:
    printed = subprocess.run(
        ["/usr/bin/python3", "-P", TOP / "tools/map"], capture_output=True, text=True, check=True
    )
    assert printed.stdout == (TOP / "crates/README.md").read_text()


def test_each_section_of_crates_stands_on_those_before_it() -> None:
    seen = set[str]()
    for crate, needs in libraries().items():
        assert needs <= seen, (crate, needs - seen)
        seen.add(crate)


def test_no_folder_at_the_top_is_unknown() -> None:
    known = {
        ".ci",
        "bench",
        "companion",
        "crates",
        "dist",
        "docs",
        "examples",
        "packaging",
        "tools",
    }
    listed = subprocess.run(
        ["git", "ls-files"], cwd=TOP, capture_output=True, text=True, check=False
    ).stdout
    folders = {line.partition("/")[0] for line in listed.splitlines() if "/" in line}
    assert folders <= known, folders - known
