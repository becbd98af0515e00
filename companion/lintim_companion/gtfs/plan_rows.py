"""The rows of a dataset from the plan that is made of a feed."""

from collections import Counter

from ..cells import MILLION
from ..faults import Refused
from ..formats import ConceptRow, Edge, LineName, Load, PeriodicTime, PoolRow, Stop
from ..line_names import mode_of_type
from .lengths import Lengths
from .plan import Plan
from .rides import Route

CUSTOMERS = 70  # of a vehicle, where the settings say nothing


def stop_rows(plan: Plan) -> list[Stop]:
    """The rows of `basis/Stop.giv`."""
    return [
        Stop(
            stop,
            plain(it.code or it.gtfs_id),
            plain(it.name),
            f"{it.at[1]:.10g}" if it.at else "",
            f"{it.at[0]:.10g}" if it.at else "",
        )
        for stop, it in sorted(plan.stops.items())
    ]


def plain(text: str) -> str:
    """A text without the signs that end a cell or a row."""
    for sign, by in ((";", ","), ("#", " "), ('"', "'")):
        text = text.replace(sign, by)
    return " ".join(text.split())


def edge_rows(plan: Plan, lengths: Lengths) -> list[Edge]:
    """The rows of `basis/Edge.giv`."""
    station = {stop: at for at, stop in plan.id_of_station.items()}
    rows = []
    for edge, two in plan.edges.items():
        places = sorted(station[it] for it in two)
        least, most = plan.bounds[(min(two), max(two))]
        rows.append(Edge(edge, *two, lengths.of[(places[0], places[1])], least, most))
    return rows


def concept_rows(plan: Plan) -> list[ConceptRow]:
    """The rows of `pinned/Line-Concept.lin`."""
    edges = plan.edge_of
    rows = []
    for name, line in plan.timed.items():
        stops = plan.stations_of(name)
        for order, two in enumerate(zip(stops, stops[1:]), 1):
            edge = edges[(min(two), max(two))]
            rows.append(ConceptRow(name, order, edge, line.frequency))
    return rows


def pool_rows(plan: Plan) -> list[PoolRow]:
    """The rows of `basis/Pool.giv`."""
    return [PoolRow(*row[:3]) for row in concept_rows(plan)]


def load_rows(plan: Plan) -> list[Load]:
    """The rows of `basis/Load.giv`: an edge is driven as often as in the feed, or as by the lines
    where these are not all of its trips."""
    by_lines = Counter[int]()
    for row in concept_rows(plan):
        by_lines[row.edge_id] += row.frequency
    rows = []
    for edge, (left, right) in plan.edges.items():
        drives = max(plan.drives[left, right], plan.drives[right, left])
        often = -(-drives // plan.window.periods)
        least, most = sorted((often, by_lines[edge]))
        if most > 1_000:
            raise Refused(f"edge {edge} is driven {most} times in a period; lintim takes 1000")
        rows.append(Load(edge, often * CUSTOMERS * MILLION, least, most))
    return rows


def timetable_rows(plan: Plan) -> list[PeriodicTime]:
    """The rows of `pinned/Timetable-periodic.tim`: events by line, direction, run and place."""
    rows: list[PeriodicTime] = []
    for line in plan.timed.values():
        for runs in (line.forward, line.backward):
            for minute, offsets in runs:
                for offset in (0, *offsets):
                    time = (minute + offset) % plan.window.period
                    rows.append(PeriodicTime(len(rows) + 1, time))
    return rows


def settings_of(plan: Plan, change: int) -> dict[str, int | str]:
    """The rows of `basis/Config.cnf`. A change may take as long as it has to."""
    values: dict[str, int | str] = {
        "load_source": "file",
        "period_length": plan.window.period,
        "ean_default_minimal_waiting_time": plan.waits[0],
        "ean_default_maximal_waiting_time": plan.waits[1],
        "ean_default_minimal_change_time": change,
        "ean_default_maximal_change_time": change + plan.window.period - 1,
        "DM_earliest_time": plan.window.first,
        "DM_latest_time": plan.window.last,
        "pin_concept": "yes",
    }
    if plan.is_timed:
        values["pin_timetable"] = "yes"
    return values


def name_rows(plan: Plan, routes: dict[str, Route]) -> list[LineName]:
    """The rows of `import/Line-Name.giv`: what the feed says of the route of each line."""
    rows = []
    for name, line in plan.lines.items():
        it = routes[line.route]
        short, long = plain(it.short or it.name), plain(it.long)
        kind = mode_of_type(it.told) if it.told <= 1_799 else mode_of_type(it.kind)
        rows.append(LineName(name, short, long, it.colour, kind, plain(it.agency), it.zone))
    return rows
