"""A study: one file that says over which points the chain is run.

The file is TOML. Each value of the tables `networks`, `settings`, `plans`, `delays` and `waits` is
one value or a list, and the points are all combinations (a full factorial design, D. C.
Montgomery, Design and analysis of experiments)."""

import hashlib
import itertools
import json
import tomllib
from collections.abc import Iterator, Mapping
from pathlib import Path
from typing import Any, NamedTuple

from .. import formats
from .. import settings as config
from ..columns import keys
from ..delays import Lateness, see_lateness
from ..faults import Refused
from ..generators import KINDS

Point = dict[str, Any]
CHOICES = {
    "pool": ("given", "paths", "trees", "both"),
    "concept": ("lintim", "lintim-concept", "direct", "time"),
    "timetable": ("lintim", "lintim-timetable", "for-passengers", "few-vehicles"),
    "vehicles": ("lintim", "lintim-schedule", "line-based"),
    "waits": ("lintim-waits",),
}
NETWORK = ("kind", "stops", "seed", "customers", "pairs")
TABLES: dict[str, tuple[str, ...]] = {
    "networks": (*NETWORK, "dataset"),
    "settings": tuple(key.name for key in keys()),
    "plans": ("pool", "lines", "concept", "budget", "timetable", "vehicles", "seconds"),
    "delays": ("law", "mean", "share", "of", "delay_seed"),
    "waits": ("waits", "penalty", "rules"),
}
HAS = {"delays": TABLES["delays"], "waits": ("waits", "penalty")}
DEFAULTS: Point = {"seed": 1, "customers": 2000, "pairs": 10, "seconds": 20}
MOST_POINTS = 100_000


class Plot(NamedTuple):
    """A picture of the table: the mean of the columns `y` over points with the same `x`, a line for
    each column and each value of `by`. With `base`, some keys with values, it is the part of what
    the same points have there; with `over`, of another column."""

    title: str
    x: str
    y: list[str]
    by: str = ""
    over: str = ""
    base: Point = {}


class Study(NamedTuple):
    """A study: its name and title, its points by their names, and its plots."""

    name: str
    title: str
    about: str
    points: dict[str, Point]
    plots: list[Plot]
    sha256: str


def read(path: str | Path) -> Study:
    """The study of a file."""
    path = Path(path)
    try:
        data = path.read_bytes()
        found = tomllib.loads(data.decode())
    except OSError as why:
        raise Refused(f"{path}: {why.strerror}") from None
    except ValueError as why:
        raise Refused(f"{path}: {why}") from None
    try:
        points = {name_of(point): point for point in _points(found, path.parent)}
        plots = [_plot(plot) for plot in found.get("plots", [])]
    except (Refused, TypeError) as why:
        raise Refused(f"{path}: {why}") from None
    title, about = str(found.get("title", path.stem)), str(found.get("about", ""))
    return Study(path.stem, title, about, points, plots, hashlib.sha256(data).hexdigest())


def _plot(found: Point) -> Plot:
    """A plot, of one column or of several."""
    columns = found.get("y")
    whole: Point = {**found, "y": columns if isinstance(columns, list) else [columns]}
    return Plot(**whole)


def name_of(point: Point) -> str:
    """The name of a point: of what it is made, so the same point has the same name in each study."""
    return hashlib.sha256(json.dumps(point, sort_keys=True).encode()).hexdigest()[:16]


def _points(found: Mapping[str, Any], beside: Path) -> Iterator[Point]:
    """All points, in the order of the file."""
    _see_tables(found)
    axes = [_axes(table, found[table]) for table in TABLES if table in found]
    count = 1
    for values in axes:
        for _, choices in values:
            count *= len(choices)
    if count > MOST_POINTS:
        raise Refused(f"{count} points, at most {MOST_POINTS}")
    names = [name for values in axes for name, _ in values]
    for chosen in itertools.product(*(choices for values in axes for _, choices in values)):
        point = {**DEFAULTS, **dict(zip(names, chosen))}
        _see(point)
        yield _with_checksum(point, beside)


def _see_tables(found: Mapping[str, Any]) -> None:
    """Sees that all tables and keys are known."""
    for table, words in found.items():
        if table in ("title", "about", "plots"):
            continue
        if table not in TABLES or not isinstance(words, dict):
            raise Refused(f"unknown table [{table}], wanted one of {', '.join(TABLES)}")
        for key in words:
            if key not in TABLES[table]:
                raise Refused(f"[{table}] unknown key {key}, wanted {', '.join(TABLES[table][:9])}")
    if "networks" not in found:
        raise Refused("there is no table [networks]")
    for table, wanted in HAS.items():
        if missing := [key for key in wanted if table in found and key not in found[table]]:
            raise Refused(f"[{table}] has no {', '.join(missing)}")


def _axes(table: str, words: Mapping[str, Any]) -> list[tuple[str, list[Any]]]:
    """The values of each key; the rules of waiting are one value."""
    found = []
    for key, value in words.items():
        if key == "rules":
            found.append((key, [list(value)]))
            continue
        choices = value if isinstance(value, list) else [value]
        for choice in choices:
            if isinstance(choice, bool) or not isinstance(choice, (str, int, float)):
                raise Refused(f"[{table}] {key}: {choice!r} is no word and no number")
        found.append((key, list(dict.fromkeys(choices))))
    return found


def _see(point: Point) -> None:
    """Sees that a point can be run."""
    if "dataset" not in point and (point.get("kind") not in KINDS or "stops" not in point):
        raise Refused(f"[networks] has no dataset, and no kind of {', '.join(KINDS)} with stops")
    for key, choices in CHOICES.items():
        if point.get(key, choices[0]) not in choices:
            raise Refused(f"{key} {point[key]!r}, wanted one of {', '.join(choices)}")
    for key in (*NETWORK[1:], "seconds", "lines", "budget", "delay_seed", "penalty"):
        if key in point and (not isinstance(point[key], int) or point[key] < 0):
            raise Refused(f"{key} {point[key]!r}, wanted a whole number")
    if "law" in point:
        see_lateness(lateness_of(point))


def lateness_of(point: Point) -> Lateness:
    """The delays of a point."""
    mean, share = float(point["mean"]), float(point["share"])
    return Lateness(point["law"], mean, share, point["of"], point["delay_seed"])


def _with_checksum(point: Point, beside: Path) -> Point:
    """The point of a folder with the checksum of what people write there, so that an edit makes
    another point; keys of generators are taken out."""
    if "dataset" not in point:
        return point
    folder = (beside / str(point["dataset"])).resolve()
    if not (folder / "basis").is_dir():
        raise Refused(f"{point['dataset']} is no dataset: it has no folder basis")
    kept = {key: value for key, value in point.items() if key not in NETWORK}
    return {**kept, "dataset": str(point["dataset"]), "data_sha256": checksum(folder)}


def checksum(folder: Path) -> str:
    """The SHA-256 of the files of a dataset that people write."""
    names = [file.name for file in formats.FILES if not file.stage]
    found = hashlib.sha256()
    for path in sorted({*names, formats.CONFIG, *config.included(folder)}):
        if (folder / path).is_file():
            data = (folder / path).read_bytes()
            found.update(f"{path} {len(data)}\n".encode() + data)
    return found.hexdigest()
