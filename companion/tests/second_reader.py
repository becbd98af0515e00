"""A second reader of folders in LinTim's form, by pandas, which shares no code with the package:
what a concept costs, whether a timetable is kept and what its weighted slack is, and what a
schedule has, all in LinTim's own ids."""

from pathlib import Path
from typing import Any

import pandas


def table(folder: Path, name: str, *columns: str) -> Any:
    """A table; what stands after the columns that are wanted goes."""
    found = pandas.read_csv(
        folder / name, sep=";", comment="#", header=None, skipinitialspace=True, quotechar='"'
    )
    found = found[list(range(len(columns)))]
    found.columns = list(columns)
    return found


def customers(folder: Path) -> float:
    """All customers of the demand."""
    return float(table(folder, "basis/OD.giv", "from", "to", "customers").customers.sum())


def concept_cost(folder: Path) -> float:
    """What the concept costs by the file of costs."""
    often = table(folder, "line-planning/Line-Concept.lin", "line", "at", "edge", "often")
    costs = table(folder, "basis/Pool-Cost.giv", "line", "length", "cost")
    once = often.drop_duplicates("line").merge(costs, on="line")
    return float((once.often * once.cost).sum())


def is_concept_kept(folder: Path) -> bool:
    """Whether each edge is driven as often as its loads want."""
    often = table(folder, "line-planning/Line-Concept.lin", "line", "at", "edge", "often")
    loads = table(folder, "basis/Load.giv", "edge", "load", "least", "most").set_index("edge")
    drives = often.groupby("edge").often.sum().reindex(loads.index).fillna(0)
    return bool(((loads.least <= drives) & (drives <= loads.most)).all())


def slacks(folder: Path, period: int) -> Any:
    """The activities with their slack under the timetable."""
    by = table(
        folder, "timetabling/Activities-periodic.giv", *"id type first second low high w".split()
    )
    times = table(folder, "timetabling/Timetable-periodic.tim", "event", "time")
    time = times.set_index("event").time
    gone = by.second.map(time) - by["first"].map(time)
    by["slack"] = (gone - by.low) % period
    return by


def is_timetable_kept(folder: Path, period: int) -> bool:
    """Whether all activities of the folder keep their bounds."""
    by = slacks(folder, period)
    return bool((by.slack <= by.high - by.low).all())


def weighted_slack(folder: Path, period: int) -> float:
    """The sum of customers times slack over all activities."""
    by = slacks(folder, period)
    return float((by.w * by.slack).sum())


def slack_here(folder: Path, made: Path, period: int) -> float:
    """The same sum with the customers of LinTim and the times of a new dataset, led back by its
    table of ids."""
    ids = pandas.read_csv(made / "import/ids.csv")
    there = ids[ids.kind == "periodic activity"].set_index("lintim_id").id
    theirs = table(
        folder, "timetabling/Activities-periodic.giv", *"id type first second low high w".split()
    )
    names = "id type first second low high".split()
    ours = table(made, "timetabling/Activities-periodic.giv", *names).set_index("id")
    times = table(made, "pinned/Timetable-periodic.tim", "event", "time").set_index("event").time
    by = ours.loc[theirs.id.map(there)].reset_index()
    gone = by.second.map(times) - by["first"].map(times)
    return float((theirs.w * ((gone - by.low) % period)).sum())


def vehicles(folder: Path) -> int:
    """How many vehicles a schedule has."""
    name = "vehicle-scheduling/Vehicle_Schedules.vs"
    rows = table(folder, name, "circulation", "vehicle", "number", "type")
    return len(rows[rows.type == "TRIP"].drop_duplicates(["circulation", "vehicle"]))
