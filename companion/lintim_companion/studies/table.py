"""The table of a study: a row for each point, in the order of the study."""

import csv
import io
import json
import os
from collections.abc import Iterable
from pathlib import Path

from ..faults import Refused
from .point import BROKEN, GOOD, Row
from .study import Study

POINTS = "points"  # the folder of the rows, a file for each point
TABLE, PARQUET = "table.csv", "table.parquet"
FIRST = ("point", "outcome", "fault")
LAST = ("version", "commit", "lintim_sha256", "companion_sha256", "scipy")


def write_whole(path: Path, data: bytes) -> None:
    """Writes a file that is there whole or not at all."""
    path.parent.mkdir(parents=True, exist_ok=True)
    new = path.with_name(f".{path.name}.{os.getpid()}")
    new.write_bytes(data)
    os.replace(new, path)


def write_row(into: Path, name: str, row: Row) -> None:
    """Writes the row of a point."""
    write_whole(into / POINTS / f"{name}.json", json.dumps(row, indent=1).encode() + b"\n")


def read_row(into: Path, name: str) -> Row | None:
    """The row of a point, where it stands."""
    try:
        found = json.loads((into / POINTS / f"{name}.json").read_bytes())
    except (OSError, ValueError):
        return None
    return found if isinstance(found, dict) and "outcome" in found else None


def rows_of(study: Study, into: Path) -> list[Row]:
    """All rows; a point that has none is broken."""
    rows = []
    for name, point in study.points.items():
        lost = {**point, "outcome": BROKEN, "fault": "it has no row: see snakemake.log"}
        rows.append({"point": name, **(read_row(into, name) or lost)})
        rows[-1].pop("rules", None)
    return rows


def columns_of(rows: Iterable[Row]) -> list[str]:
    """The columns: the point and what became of it, then as rows have them, then what made it."""
    seen = dict.fromkeys(key for row in rows for key in row)
    seconds = [key for key in seen if key.startswith("seconds_")]
    middle = [key for key in seen if key not in (*FIRST, *LAST, *seconds)]
    return [*FIRST, *middle, *seconds, *(key for key in LAST if key in seen)]


def csv_of(rows: list[Row]) -> bytes:
    """The table as a text of comma-separated values (RFC 4180, with line feeds)."""
    text = io.StringIO()
    writer = csv.DictWriter(text, columns_of(rows), lineterminator="\n")
    writer.writeheader()
    writer.writerows(rows)
    return text.getvalue().encode()


def write_table(study: Study, into: Path) -> list[Row]:
    """Writes the table, as parquet too where pyarrow is there: its rows."""
    rows = rows_of(study, into)
    write_whole(into / TABLE, csv_of(rows))
    try:
        import pyarrow  # noqa: F401
    except ImportError:
        return rows
    import pandas

    new = into / f".{PARQUET}.{os.getpid()}"
    pandas.DataFrame(rows, columns=columns_of(rows)).to_parquet(new)
    os.replace(new, into / PARQUET)
    return rows


def broken(rows: Iterable[Row]) -> list[Row]:
    """The rows of points that broke: a fault, and no answer."""
    return [row for row in rows if row["outcome"] == BROKEN]


def good(rows: Iterable[Row]) -> list[Row]:
    """The rows of points whose chain ran to its end."""
    return [row for row in rows if row["outcome"] == GOOD]


def without_plan(rows: Iterable[Row]) -> list[Row]:
    """The rows of points whose answer is that there is no plan."""
    return [row for row in rows if row["outcome"] not in (GOOD, BROKEN)]


def remove_broken(study: Study, into: Path) -> int:
    """Takes the rows of broken points away, so that they are run again: how many there were."""
    count = 0
    for name in study.points:
        path = into / POINTS / f"{name}.json"
        row = read_row(into, name)
        if path.exists() and (row is None or row["outcome"] == BROKEN):
            path.unlink()
            count += 1
    return count


def see_folder(into: Path, name: str) -> None:
    """Sees that a folder is new, empty, or one of this study."""
    mark = into / ".study"
    if into.exists() and not into.is_dir():
        raise Refused(f"{into}: no folder")
    if into.is_dir() and any(into.iterdir()):
        found = mark.read_text().strip() if mark.is_file() else ""
        if found != name:
            of = f"of the study {found}" if found else "not of a study"
            raise Refused(f"{into} has files that are {of}: name a new folder")
    into.mkdir(parents=True, exist_ok=True)
    write_whole(mark, f"{name}\n".encode())
