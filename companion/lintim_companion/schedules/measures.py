"""What a vehicle schedule comes to for an operator: kilometres, hours of drivers, money of a year.

All is told from the rows of the schedule. A trip goes over all edges of its line; an empty drive
takes the way of least minutes, and of equally quick ones the shortest. A driver is with a
vehicle from the start of its first trip to the end of its last one, also where it stands."""

import heapq
from collections import defaultdict
from collections.abc import Iterable
from pathlib import Path
from typing import Annotated, NamedTuple

from .. import files
from ..cells import MILLION, File, Fixed, Text
from ..dataset import Dataset
from ..faults import Refused
from ..formats import EDGES, LINE_COSTS, ScheduleRow
from ..rows import number_text
from ..tables import parsed

MOST_BYTES = 2**20


class YearRow(NamedTuple):
    """A price, or how a day and a unit of length are to be counted."""

    key: Annotated[str, Text(), "its name"]
    value: Annotated[int, Fixed(0, 10**9), "its value"]


class YearCosts(NamedTuple):
    """What a year is reckoned with: money for each vehicle, each kilometre and each hour of a
    driver, how many such days a year has, and the kilometres of a unit of length; all in
    millionths."""

    vehicle_of_a_year: int
    kilometre: int
    driver_hour: int
    days: int = 250 * MILLION
    kilometres_of_a_unit: int = MILLION


class Measures(NamedTuple):
    """Vehicles, units of length on trips and without customers in millionths, minutes of
    drivers, and minutes of these on trips."""

    vehicles: int
    length: int
    empty_length: int
    minutes: int
    trip_minutes: int

    def money(self, costs: YearCosts) -> int:
        """The money of a year, in millionths, rounded down."""
        kilometres = (self.length + self.empty_length) * costs.kilometres_of_a_unit // MILLION
        day = kilometres * costs.kilometre + self.minutes * MILLION * costs.driver_hour // 60
        return self.vehicles * costs.vehicle_of_a_year + day * costs.days // MILLION**2


def read_costs(path: Path) -> YearCosts:
    """The costs of a file of rows `key; value`."""
    try:
        there = path.resolve()
        data = files.read_bytes(there.parent, there.name, MOST_BYTES)
    except OSError as why:
        raise Refused(f"{path} cannot be read: {why.strerror}") from None
    if data is None:
        raise Refused(f"{path} is missing")
    found: dict[str, int] = {}
    for number, row in enumerate(parsed(File(str(path), YearRow), data), 1):
        if row.key not in YearCosts._fields:
            wanted = ", ".join(YearCosts._fields)
            raise Refused(f"{path} row {number}: unknown key ({row.key}, wanted {wanted})")
        if row.key in found:
            raise Refused(f"{path} row {number}: {row.key} comes twice")
        found[row.key] = row.value
    for key in YearCosts._fields:
        if key not in found and key not in YearCosts._field_defaults:
            raise Refused(f"{path} has no row for {key}")
    return YearCosts(**found)


def measures(data: Dataset, rows: Iterable[ScheduleRow]) -> Measures:
    """What the rows of a schedule come to."""
    of_line = {line.line_id: line.length for line in data[LINE_COSTS]}
    reach = Reach(data)
    first: dict[int, int] = {}
    last: dict[int, int] = {}
    length = empty = trips = 0
    for row in rows:
        if row.type == "EMPTY":
            empty += reach.length(row.start_stop, row.end_stop)
            continue
        first.setdefault(row.vehicle, row.start_time)
        last[row.vehicle] = row.end_time
        if row.line not in of_line:
            raise Refused(f"the schedule has a trip of line {row.line}, which the pool has not")
        length += of_line[row.line]
        trips += row.end_time - row.start_time
    minutes = sum(last[vehicle] - first[vehicle] for vehicle in first)
    return Measures(len(first), length, empty, minutes, trips)


class Reach:
    """Lengths of ways of least minutes."""

    def __init__(self, data: Dataset) -> None:
        self.ways: dict[int, list[tuple[int, int, int]]] = defaultdict(list)
        for edge in data[EDGES]:
            for a, b in ((edge.left_stop, edge.right_stop), (edge.right_stop, edge.left_stop)):
                self.ways[a].append((b, edge.lower_bound, edge.length))
        self.known: dict[int, dict[int, int]] = {}

    def length(self, start: int, end: int) -> int:
        """The length of the quickest way, in millionths."""
        if start not in self.known:
            self.known[start] = self._from(start)
        if end not in self.known[start]:
            raise Refused(f"an empty drive from stop {start} to stop {end} has no way")
        return self.known[start][end]

    def _from(self, start: int) -> dict[int, int]:
        found: dict[int, int] = {}
        heap = [(0, 0, start)]
        while heap:
            minutes, length, stop = heapq.heappop(heap)
            if stop not in found:
                found[stop] = length
                for other, more, longer in self.ways.get(stop, ()):
                    heapq.heappush(heap, (minutes + more, length + longer, other))
        return found


def table(told: dict[str, tuple[Measures, int]], costs: YearCosts | None) -> list[str]:
    """The table: a line for each schedule, with the cost by which `lintim` judges it."""
    unit = "units" if costs is None else "km"
    scale = MILLION if costs is None else costs.kilometres_of_a_unit
    head = ["schedule", "vehicles", "cost", unit, f"empty {unit}", "hours", "hours on trips"]
    rows = [head + ([] if costs is None else ["money of a year"])]
    for name, (it, cost) in told.items():
        lengths = [f"{each * scale / MILLION**2:.1f}" for each in (it.length, it.empty_length)]
        hours = [f"{minutes / 60:.1f}" for minutes in (it.minutes, it.trip_minutes)]
        cells = [name, str(it.vehicles), number_text(cost), *lengths, *hours]
        rows.append(cells + ([] if costs is None else [f"{it.money(costs) / MILLION:,.0f}"]))
    return ["; ".join(row) for row in rows]
