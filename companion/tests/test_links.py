"""Links and anchors of all pages lead somewhere, and the index has all pages."""

import re
from collections.abc import Iterator
from pathlib import Path

import pytest

from lintim_companion import program
from lintim_companion.page_runs.walks import pages

TOP = program.CHECKOUT
FENCES = re.compile(r"^```.*?^```$|^    [^\n]*$|<!--.*?-->", re.M | re.S)
LINK = re.compile(r"\]\(([^)\s]+)\)")
LONGEST = 100
LONG_LINES = {"docs/house/DECISIONS.md", "docs/PROVED.md"}  # for contributors


def prose(page: str) -> str:
    """A page without its blocks."""
    return FENCES.sub("", (TOP / page).read_text())


def anchors(path: Path) -> set[str]:
    """The anchors of the headings of a page, as those who show pages make them."""
    heads = re.findall(r"^#+ (.*)$", FENCES.sub("", path.read_text()), re.M)
    kept = (re.sub(r"[^\w\- ]", "", head.lower()) for head in heads)
    found: list[str] = []
    for name in (it.replace(" ", "-") for it in kept):
        same = sum(re.fullmatch(rf"{re.escape(name)}(-\d+)?", it) is not None for it in found)
        found.append(f"{name}-{same}" if same else name)
    return set(found)


def links(page: str) -> Iterator[tuple[str, Path, str]]:
    """The links of a page to files: as written, the file, and the anchor."""
    for target in LINK.findall(re.sub(r"`[^`]*`", "", prose(page))):
        if not re.match(r"https?:|mailto:", target):
            name, _, anchor = target.partition("#")
            yield target, (TOP / page).parent / name if name else TOP / page, anchor


@pytest.mark.parametrize("page", pages())
def test_links_and_anchors_lead_somewhere(page: str) -> None:
    for target, path, anchor in links(page):
        assert path.exists(), f"{page}: {target}"
        if anchor:
            assert anchor in anchors(path), f"{page}: {target}"


def test_the_index_has_all_pages() -> None:
    linked = {path.resolve() for _, path, _ in links("docs/README.md")}
    wanted = {(TOP / page).resolve() for page in pages()} - {(TOP / "docs/README.md").resolve()}
    assert wanted <= linked


def test_there_are_links_to_look_at() -> None:
    assert sum(1 for page in pages() for _ in links(page)) > 200


def test_the_first_page_is_short() -> None:
    assert len((TOP / "README.md").read_text().splitlines()) <= 120


@pytest.mark.parametrize("page", [page for page in pages() if page not in LONG_LINES])
def test_prose_is_wrapped(page: str) -> None:
    for line in prose(page).splitlines():
        assert len(line) <= LONGEST or line.startswith(("|", "![", "  |")), f"{page}: {line}"


def test_anchors(tmp_path: Path) -> None:
    page = tmp_path / "page.md"
    page.write_text("# A b, c-d\n\n## `x` y\n\n## `x` y\n\n    # none\n")
    assert anchors(page) == {"a-b-c-d", "x-y", "x-y-1"}
