"""The page of definitions has each file of specifications in the rows of its crate, and no other."""

import re
from collections import defaultdict
from pathlib import Path

TOP = Path(__file__).resolve().parents[2]
ROW = re.compile(r"\| (?P<crate>`\w+`|) ?\|(?P<thing>.*)\|(?P<files>[^|]*)\|")


def told() -> dict[str, set[str]]:
    """The files that the page names, by crate; a row without a crate goes on with the one above."""
    files: dict[str, set[str]] = defaultdict(set)
    crate = ""
    for line in (TOP / "docs/house/DEFINITIONS.md").read_text().splitlines():
        row = ROW.fullmatch(line)
        if row:
            crate = row["crate"].strip("`") or crate
            files[crate].update(re.findall(r"`(\w+)\.antt`", row["files"]))
    return {crate: names for crate, names in files.items() if names}


def there() -> dict[str, set[str]]:
    """The files that there are."""
    files: dict[str, set[str]] = defaultdict(set)
    for path in TOP.glob("crates/*/specs/*.antt"):
        if path.stem != "Lib":
            files[path.parts[-3]].add(path.stem)
    return dict(files)


def test_the_page_has_each_file() -> None:
    assert told() == there()
