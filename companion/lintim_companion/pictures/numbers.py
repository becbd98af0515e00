"""The fourteen values of the statistic in words, and how two datasets differ."""

from collections import Counter
from typing import Any

from ..cells import File
from ..columns import columns
from ..dataset import Dataset
from ..formats import CONCEPT, FILES, STATISTIC
from ..rows import number_text
from .plan import Plan
from .scene import Section

MOST = 12  # rows that are named where more differ
MEANINGS = {
    "lc_cost": "what the line concept costs",
    "lc_lines": "lines that are driven",
    "ean_events": "departures and arrivals in a period",
    "ean_activities": "drives, waits, changes, syncs and headways in a period",
    "tim_drive_time": "minutes of all drives in the periodic timetable",
    "tim_wait_time": "minutes of all waits of vehicles at stops on their way",
    "tim_change_time": "minutes of all changes, wanted or not: shorter is better",
    "ro_trips": "trips of the day",
    "vs_vehicles": "vehicles that drive them",
    "vs_empty_minutes": "minutes of all empty rides",
    "vs_cost": "what vehicles and empty minutes cost",
    "dm_total_delay": "minutes by which all arrivals together are late",
    "dm_max_delay": "minutes by which the latest event is late",
    "dm_missed_changes": "changes that are missed, since the departure did not wait long enough",
}


def number_section(plan: Plan, other: Plan | None = None) -> Section:
    """The values of one dataset, or of two and how they differ."""
    section = Section("numbers", "Numbers", "What the plans come to, from all stages.")
    section.left_out = plan.missing(STATISTIC) or (other.missing(STATISTIC) if other else "")
    if section.left_out:
        return section
    values = [value_of(it.data) for it in (plan, other) if it]
    section.head = ("name", "value", "what it means")
    if other:
        section.head = ("name", "first", "second", "more in the second", "what it means")
    keys = list(dict.fromkeys(key for each in values for key in each))
    for key in keys:
        cells = [number_text(each[key]) if key in each else "" for each in values]
        if other:
            both = [each[key] for each in values if key in each]
            cells.append(number_text(both[1] - both[0]) if len(both) == 2 else "")
        section.table.append((key, *cells, MEANINGS.get(key, "")))
    return section


def value_of(data: Dataset) -> dict[str, int]:
    """The values of a statistic."""
    return {row.key: row.value for row in data[STATISTIC]}


def difference_section(plan: Plan, other: Plan) -> Section:
    """Which files differ, by rows, and which lines are driven more or less often."""
    section = Section(
        "differences", "What differs", "Rows of each file that only one of the two has."
    )
    section.head = ("file or line", "only in the first", "only in the second", "which rows")
    for file in FILES:
        if file in plan.data or file in other.data:
            first, second = rows_apart(file, plan.data, other.data)
            if first or second:
                counts = str(len(first)), str(len(second))
                section.table.append((file.name, *counts, which(file, [*first, *second])))
    often = [frequencies(it.data) for it in (plan, other)]
    for line in sorted({*often[0], *often[1]}):
        two = [f"driven {each[line]} times" if line in each else "not there" for each in often]
        if two[0] != two[1]:
            section.table.append((f"line {line}", *two, ""))
    if not section.table:
        section.left_out = "both have the same rows in all files"
    return section


def rows_apart(file: File[Any], first: Dataset, second: Dataset) -> list[list[tuple[Any, ...]]]:
    """The rows of a file that only the first dataset has, and those that only the second has."""
    rows = [Counter(map(tuple, data.get(file))) for data in (first, second)]
    return [[*(rows[0] - rows[1]).elements()], [*(rows[1] - rows[0]).elements()]]


def which(file: File[Any], rows: list[tuple[Any, ...]]) -> str:
    """Some rows by their first cells: what column it is, and what stands there."""
    first = sorted({row[0] for row in rows})
    more = f" and {len(first) - MOST} more" if len(first) > MOST else ""
    return f"{columns(file)[0].title} {', '.join(map(str, first[:MOST]))}{more}"


def frequencies(data: Dataset) -> dict[int, int]:
    """How often each line of a concept is driven."""
    return {row.line_id: row.frequency for row in data.get(CONCEPT)}
