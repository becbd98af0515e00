"""All pages are run, and what they show is what comes."""

import re
from pathlib import Path

import pytest

from lintim_companion import program
from lintim_companion.faults import NoProgram
from lintim_companion.manners import see_package
from lintim_companion.page_runs import compare, marks
from lintim_companion.page_runs.blocks import Block, blocks_of, is_command, spans_of
from lintim_companion.page_runs.shell import Shell
from lintim_companion.page_runs.walks import pages, pages_to_run, walk
from lintim_companion.registry import COMMANDS

TEXTS = {page: (program.CHECKOUT / page).read_text() for page in pages()}
LONG = sorted({mark.page for mark in marks.MARKS if mark.long})


def see_packages() -> None:
    """Leaves a test out where a package is missing that some page needs."""
    try:
        for command in COMMANDS:
            for package in command.packages:
                see_package(package)
    except NoProgram as why:
        pytest.skip(str(why))


@pytest.mark.parametrize("page", pages_to_run())
def test_a_page_shows_what_comes(page: str, tmp_path: Path, lintim: str) -> None:
    see_packages()
    walked = walk(page, tmp_path / "it")
    assert walked.faults == []


@pytest.mark.long
@pytest.mark.parametrize("page", LONG)
def test_a_page_shows_what_comes_after_minutes(page: str, tmp_path: Path, lintim: str) -> None:
    see_packages()
    assert walk(page, tmp_path / "it", everything=True).faults == []


def test_what_is_marked_stands_on_its_page_and_has_a_reason() -> None:
    for mark in (it for it in marks.MARKS if it.page in TEXTS):
        lines = [line for block in blocks_of(TEXTS[mark.page]) for line in block.lines]
        assert mark.why and any(line.startswith(mark.begins) for line in lines), mark
    for (page, span), why in marks.SPANS.items():
        assert why in TEXTS and any(span == it for _, it in spans_of(TEXTS[page]))


def test_most_pages_with_commands_are_run() -> None:
    counted = {page: walkable(text) for page, text in TEXTS.items()}
    assert sum(counted.values()) >= 60 and len([page for page in counted if counted[page]]) >= 14


def walkable(text: str) -> int:
    return sum(block.kind in ("command", "hidden") for block in blocks_of(text))


def test_what_pages_call_tmp_is_a_folder_of_their_own(tmp_path: Path, lintim: str) -> None:
    shell = Shell(tmp_path / "it")
    try:
        assert shell.run("cd /tmp && mkdir town && cd /tmp/town && pwd").printed == "/tmp/town\n"
        assert shell.run("cd /tmp").folder == tmp_path / "it/tmp"
    finally:
        shell.stop()
    assert (tmp_path / "it/tmp/town").is_dir()


def test_blocks() -> None:
    text = (
        "# A\n\n    lintim make\n\n    done\n\n<!-- run: cd x\nlintim check -->\n```\n1; 2\n```\n"
    )
    assert blocks_of(text) == [
        Block(3, "command", ("lintim make",)),
        Block(5, "shown", ("done",)),
        Block(7, "hidden", ("cd x", "lintim check")),
        Block(10, "shown", ("1; 2",)),
    ]
    assert spans_of("a `b\nc` <!-- run: `d` -->\n\n    `e`\n`f`") == [(1, "b c"), (5, "f")]


@pytest.mark.parametrize("line", ["../lintim make", "lintim", "./test", "lintim-waits . 10"])
def test_commands(line: str) -> None:
    assert is_command(line)


@pytest.mark.parametrize(
    "line",
    ["lintim keep 1 cost", "load: 2 edges", "1; 2", "checked", "lintim make ends with: done"],
)
def test_no_commands(line: str) -> None:
    assert not is_command(line)


def test_the_rule_of_comparing() -> None:
    text = ["a", "found in 0.4 s, 8.9 MB", "b", "lintim 1.0.0"]
    assert compare.stands_in(["found in 12 s, 17 MB", "b"], text)
    assert compare.stands_in(["a", "..", "lintim 2.3.4"], text)
    assert not compare.stands_in(["a", "b"], text) and compare.are_rows_of(["a", "b"], text)
    assert not compare.are_rows_of(["b", "a"], text)
    assert not compare.stands_in(["cost 27"], ["cost 28"])
    assert compare.is_report("concept: cost 27, optimal") and compare.is_report(
        "spent: waits after 8"
    )
    assert not compare.is_report("concept: cost C, optimal") and not compare.is_report(
        "cost: N lines"
    )


@pytest.mark.parametrize(
    "page, found, put",
    [
        ("docs/STAGES-LINES.md", "concept: cost 27, optimal, 9", "concept: cost 28, optimal, 9"),
        ("docs/STAGES-LINES.md", "    1; 5; 15\n", "    1; 5; 16\n"),
        ("docs/STAGES-LINES.md", "'concept_budget; 8'", "'concept_budget; 7'"),
        ("docs/STAGES-LINES.md", "`spent: concept after 6 entries`", "`spent: concept after 7`"),
        ("docs/STAGES.md", "    lintim demo 5", "    lintim demo 6"),
        ("docs/STAGES.md", "    lintim demo 5", "    lintim-demo 5"),
    ],
)
def test_a_page_that_is_wrong_is_found(
    page: str, found: str, put: str, tmp_path: Path, lintim: str, monkeypatch: pytest.MonkeyPatch
) -> None:
    whole = Path.read_text
    assert found in TEXTS[page]

    def read(path: Path, encoding: str | None = None, errors: str | None = None) -> str:
        text = whole(path, encoding, errors)
        return text.replace(found, put, 1) if path == program.CHECKOUT / page else text

    monkeypatch.setattr(Path, "read_text", read)
    faults = walk(page, tmp_path / "it").faults
    assert faults and re.match(rf"{page} line \d+: ", faults[0])
