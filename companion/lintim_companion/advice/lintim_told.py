"""Folders of LinTim, and what its files and keys mean there and not here."""

from collections.abc import Iterator
from pathlib import Path

from ..cells import MILLION
from ..columns import header
from ..dataset import read_file
from ..exchange.pairs import opposite
from ..faults import Refused
from ..formats import CONFIG, EDGES, FILES, LINE_COSTS, PINNED_SCHEDULE
from ..settings import ConfigRow
from ..tables import parsed
from .context import Context
from .findings import Finding, both, call, either, finding, rename, take_out, write_line
from .texts import Text
from .values_told import config_rows

LONGEST_DAY = 2_880  # minutes; a longer one is rare, and may be one in seconds
COSTS_THERE = "basis/Pool-Cost-of-LinTim.giv"


def converted(folder: Path) -> str:
    """That a dataset is to be made of a folder of LinTim."""
    name = folder.resolve().name
    return f"make a dataset of it beside it: `lintim-convert in . ../{name}-for-lintim`"


def of_lintim(it: Context, folder: Path) -> Iterator[Finding]:
    """What is told of a folder that LinTim may have written."""
    yield from _made_by_others(it, folder)
    yield from _keys(it, folder)
    yield from _seconds(it)
    yield from _opposite_edges(it, folder)


def others_made(folder: Path) -> list[str]:
    """Files that a stage makes and `lintim` did not write: no folder keep is there, and their
    first lines are not those that it writes."""
    if (folder / "keep").exists():
        return []
    found = []
    for file in FILES:
        try:
            if file.stage and (folder / file.name).is_file():
                with open(folder / file.name, "rb") as opened:
                    if opened.readline(1_000).removesuffix(b"\n") != header(file).encode():
                        found.append(file.name)
        except OSError:
            continue
    return found


def _made_by_others(it: Context, folder: Path) -> Iterator[Finding]:
    """Made files of another program, and costs that would be others."""
    names = others_made(folder)
    if names:
        told = ", ".join(names[:5]) + (f" and {len(names) - 5} more" if len(names) > 5 else "")
        yield finding(
            f"files stand here that lintim makes and did not write: {told}",
            "lintim make overwrites or removes them, and all others that it makes",
            remedy=either(converted(folder), "work in a copy"),
            file=names[0],
        )
    elif not (folder / "keep").exists():
        yield from _costs(it, folder)


def _costs(it: Context, folder: Path) -> Iterator[Finding]:
    """Costs of lines that are not those of the keys, and that would be overwritten."""
    try:
        path = folder / LINE_COSTS.name
        theirs = parsed(LINE_COSTS, path.read_bytes() if path.is_file() else b"")
        made = {row.line_id: row.cost for row in read_file(it.copy.folder, LINE_COSTS)}
    except (Refused, OSError):
        return
    for row in theirs:
        if row.line_id in made and abs(row.cost - made[row.line_id]) > MILLION // 100:
            yield finding(
                f"{LINE_COSTS.name} is made by lintim, which overwrites it: line {row.line_id}"
                f" costs {row.cost / MILLION:g} there, and {made[row.line_id] / MILLION:g} by the"
                " keys lpool_costs_fixed, lpool_costs_length and lpool_costs_edges",
                remedy=either(rename(LINE_COSTS.name, COSTS_THERE), "keep a copy elsewhere"),
                file=LINE_COSTS.name,
            )
            return


def _keys(it: Context, folder: Path) -> Iterator[Finding]:
    """Keys of LinTim with which its files mean something else."""
    last = {row.key: row for row in config_rows(it)}
    undirected = last.get("ptn_is_undirected")
    if undirected is not None and undirected.value.lower() not in ("true", "1", "yes"):
        yield _key(
            undirected,
            "edges of such a network of LinTim lead one way, and lintim drives each edge both ways",
            either(
                converted(folder),
                write_line(undirected.name, undirected.line, "ptn_is_undirected; true"),
            ),
        )
    units = last.get("time_units_per_minute")
    if units is not None and units.value.removesuffix(".0") != "1":
        yield _key(
            units,
            "a time unit of LinTim is no minute there, and lintim takes all times as minutes",
            either(converted(folder), take_out(units.name, units.line)),
        )


def _key(row: ConfigRow, says: str, remedy: str) -> Finding:
    return finding(
        f"{row.name} line {row.line}: `{row.key}; {row.value}` changes nothing here: {says}",
        remedy=remedy,
        file=row.name,
    )


def _seconds(it: Context) -> Iterator[Finding]:
    """A day of several days, which may be told in seconds."""
    last = {row.key: row for row in config_rows(it)}
    ends = last.get("DM_latest_time")
    minutes = _whole(ends)
    if ends is None or not LONGEST_DAY < minutes <= 10_080:
        return
    says = f"{ends.name} line {ends.line}: a day to minute {minutes} is one of {minutes // 1440}"
    says += f" days; {minutes} seconds, as LinTim has them, would be {minutes // 60} minutes"
    begins = last.get("DM_earliest_time")
    steps = [write_line(ends.name, ends.line, f"DM_latest_time; {minutes // 60}")]
    if begins is None:
        steps.append(f"add to {CONFIG}: `DM_earliest_time; 0`")
    elif _whole(begins):
        early = f"DM_earliest_time; {_whole(begins) // 60}"
        steps.append(write_line(begins.name, begins.line, early))
    yield finding(says, remedy=both(*steps), file=ends.name)


def _whole(row: ConfigRow | None) -> int:
    """The whole number of a row; 0 where it is none."""
    text = row.value.removesuffix(".0") if row is not None else ""
    return int(text) if text.isascii() and text.isdigit() and len(text) < 9 else 0


def _opposite_edges(it: Context, folder: Path) -> Iterator[Finding]:
    """Edges that all have another one which leads back, so that each line is there twice."""
    edges = [at.row for at in it.names.rows(EDGES)]
    twins = opposite(edges)
    if len(edges) < 2 or len(twins) < len(edges):
        return
    one = edges[0].edge_id
    yield finding(
        f"each of the {len(edges)} edges has another one that leads back, as edge {one} has edge"
        f" {twins[one]}: lintim drives each edge both ways, so each line is there twice",
        remedy=converted(folder),
        file=EDGES.name,
    )


def is_include_of_lintim(value: str) -> bool:
    """Whether an include is one of a dataset of LinTim, which leads out of the folder."""
    return "/" in value and value.rsplit("/", 1)[-1].endswith("-Config.cnf")


def include(text: Text, line: int, folder: Path) -> Finding:
    """An include row of LinTim."""
    return finding(
        f"{text.name} line {line}: {text.line(line)}",
        "so the config of each dataset of LinTim begins; lintim reads files of the folder basis"
        " alone, and its keys have other units",
        remedy=either(converted(folder), take_out(text.name, line)),
        file=text.name,
    )


def empty_lines(text: Text, place: int, cell: str) -> tuple[str, str] | None:
    """What is wrong with the line of an empty ride where LinTim wrote it."""
    if text.name != PINNED_SCHEDULE.name or place != 12 or cell != "-1":
        return None
    says = "LinTim writes -1 as the line of an empty drive, and here it is 0"
    return says, call(f"sed -i 's/; *-1 *\\(\\r\\?\\)$/; 0\\1/' {text.name}")
