"""One point of a study: a dataset is made, the chain is run over it with the plans of the point,
and what it comes to is a row of the table."""

import re
import shutil
import time
from collections.abc import Callable
from pathlib import Path
from typing import Any

from .. import dataset, formats, generators, program, trials
from ..cells import MILLION
from ..delays import day_of_delays
from ..faults import Refused
from ..hand import copy_hand_files
from .made_by import made_by
from .study import Point, lateness_of

Row = dict[str, Any]
ANSWERS = (  # of a solver, that no plan is there; `lintim` says `no solution` or `spent`
    "no concept keeps the bounds of all edges",
    "no timetable keeps all bounds",
)
TIMETABLES = {
    "lintim-timetable": (),
    "for-passengers": ("--for-passengers",),
    "few-vehicles": ("--few-vehicles",),
}
GOOD, BROKEN = "good", "broken"


class NoPlan(Exception):
    """A point whose answer is that there is no plan."""


class Run:
    """A point on its way: its folder, and the row so far."""

    def __init__(self, point: Point, folder: Path) -> None:
        self.point, self.folder = point, folder
        self.row: Row = {}

    def timed(self, part: str, work: Callable[[], Any]) -> Any:
        """Does a part, and adds the seconds it took to the row."""
        begun = time.monotonic()
        try:
            return work()
        finally:
            seconds = self.row.get(f"seconds_{part}", 0.0) + time.monotonic() - begun
            self.row[f"seconds_{part}"] = round(seconds, 3)

    def make(self, must: bool = True) -> program.Answer:
        """Runs the chain, which has to end with all plans where it `must`; a refusal is a fault in
        any case."""
        answer: program.Answer = self.timed("lintim", lambda: program.run(self.folder, "make"))
        has_none = answer.status in (4, 5)
        if must and has_none:
            raise NoPlan(answer.last)
        if answer.status != 0 and not has_none:
            raise Refused(f"lintim make says: {answer.last}")
        return answer

    def command(self, part: str, name: str, *words: object) -> list[str]:
        """Runs a command of the package over the folder: its lines."""
        ended: trials.Command = self.timed(part, lambda: trials.run(name, self.folder, *words))
        if ended.status != 0:
            says = ended.lines[-1] if ended.lines else f"nothing ({ended.status})"
            says = says.removeprefix(f"lintim-{name}: ")
            if any(answer in says for answer in ANSWERS):
                raise NoPlan(says)
            raise Refused(f"lintim-{name}: {says}")
        return ended.lines

    def set(self, **values: int | str) -> None:
        """Settings of the dataset."""
        dataset.write_settings(self.folder, values)


def row_of(point: Point, folder: Path, beside: Path) -> Row:
    """The row of a point, whatever becomes of it. The folder is new, and is taken away after."""
    run = Run(point, folder)
    outcome, fault = GOOD, ""
    try:
        run.timed("dataset", lambda: _dataset(run, beside))
        _plans(run)
        _day(run)
        verdict = run.timed("check", lambda: program.run(folder, "check")).last
        if verdict != "checked":
            raise Refused(f"lintim check says: {verdict}")
        if "waits" in point:
            _waits(run)
    except NoPlan as why:
        outcome = str(why)
    except Refused as why:
        outcome, fault = BROKEN, str(why)
    except Exception as why:  # whatever it is, it is told, and other points go on
        outcome, fault = BROKEN, f"{type(why).__name__}: {why}"
    finally:
        shutil.rmtree(folder, ignore_errors=True)
    shown = {key: value for key, value in point.items() if key != "rules"}
    fault = " ".join(fault.replace(str(folder), "DATASET").split())
    has_plan = {} if outcome == BROKEN else {"has_plan": int(outcome == GOOD)}
    return {**shown, "outcome": outcome, "fault": fault, **has_plan, **run.row, **made_by()}


def _dataset(run: Run, beside: Path) -> None:
    """Writes the dataset of the point with its settings."""
    point = run.point
    settings = {key: point[key] for key in formats.Settings._fields if key in point}
    if "dataset" in point:
        copy_hand_files(beside / point["dataset"], run.folder)
        run.set(**settings)
        return
    network = generators.KINDS[point["kind"]](point["stops"], point["seed"])
    lines = generators.lines_of(network, point["pairs"], point["seed"])
    demand = generators.gravity(network, point["customers"], point["seed"])
    generators.write(run.folder, network, lines, demand, {"load_source": "od", **settings})
    run.row["edges"], run.row["pool_lines"] = len(network.edges), len(lines)


def _plans(run: Run) -> None:
    """The plans by `lintim` or by the commands, each pinned before the next one is made."""
    point, seconds = run.point, ("--seconds", run.point["seconds"])
    if (pool := point.get("pool", "given")) != "given":
        most = ("--lines", point.get("lines", 40), "--replace")
        run.command("pool", "pool", "--method", pool, *most, *seconds)
    if (model := point.get("concept", "lintim")) != "lintim":
        run.make(must=False)
        lines = run.command("concept", "concept", *_model(model, point), *seconds)
        nodes = re.search(r"a tree of ([\d,]+) nodes", " ".join(lines))
        run.row["concept_nodes"] = int(nodes[1].replace(",", "")) if nodes else None
        run.set(pin_concept="yes")
    if (chosen := point.get("timetable", "lintim")) != "lintim":
        run.make(must=chosen != "lintim-timetable")
        lines = run.command("timetable", "timetable", *TIMETABLES[chosen], *seconds)
        gap = re.search(r"a gap of ([\d.]+)%", " ".join(lines))
        run.row["timetable_gap_percent"] = float(gap[1]) if gap else None
        run.set(pin_timetable="yes")
    if point.get("vehicles", "lintim") != "lintim":
        run.make()
        is_bound = point["vehicles"] == "line-based"
        run.command("vehicles", "schedule", *(["--line-based"] if is_bound else []))
        run.set(pin_vehicles="yes")


def _model(model: str, point: Point) -> list[object]:
    """The words of `lintim-concept` for a model."""
    if model == "lintim-concept":
        return []
    return ["--model", model, "--budget", point.get("budget", 120)]


def _day(run: Run) -> None:
    """The day with its delays: the fourteen values, the costs and what is proved of them."""
    answer = run.make()
    if "law" in run.point:
        events, activities = day_of_delays(dataset.read(run.folder), lateness_of(run.point))
        dataset.write(run.folder, formats.EVENT_DELAYS, events)
        dataset.write(run.folder, formats.ACTIVITY_DELAYS, activities)
        run.row["delays"] = len(events) + len(activities)
        run.row["delay_minutes"] = sum(
            [it.delay for it in events] + [it.delay for it in activities]
        )
        answer = run.make()
    run.row.update(statistic(run.folder))
    for stage, key in (("concept", "concept_proof"), ("vehicles", "vehicles_proof")):
        parts = answer.line_of(stage).split(", ")
        proofs = [part for part in parts if part.endswith("optimal")]
        run.row[key] = proofs[0] if proofs else None
    run.row.update(run.timed("customers", lambda: customers(run.folder)))
    run.row.update(ways(run.folder))


def statistic(folder: Path) -> Row:
    """The fourteen values, as numbers."""
    rows = dataset.read_file(folder, formats.STATISTIC).rows
    return {key: value / MILLION if value % MILLION else value // MILLION for key, value in rows}


def customers(folder: Path) -> Row:
    """What the timetable is to customers, by their best routes from stop to stop, in means."""
    from ..timetables.network import periodic_network, whole
    from ..timetables.routes import Router, demand_of

    data = dataset.read(folder)
    demand = demand_of(data)
    if not len(demand.origin) or not len(data[formats.PERIODIC_EVENTS]):
        return {}
    network = periodic_network(data)
    times = whole([row.time for row in data[formats.TIMETABLE]])
    routing = Router(network, demand, 10).route(times)
    return {
        "customer_minutes": round(float(routing.minutes), 4),
        "customer_change_minutes": round(float(routing.change_minutes), 4),
        "customer_changes": round(float(routing.changes), 4),
    }


def ways(folder: Path) -> Row:
    """What the line concept is to customers, without a timetable: how many are direct and have one
    change, in percent, and the mean minutes in vehicles with 5 for each change."""
    from ..line_concepts.journeys import served

    data = dataset.read(folder)
    driven = {row.line_id for row in data[formats.CONCEPT] if row.frequency}
    found: Row = {"lines_driven": len(driven)}
    if len(data.get(formats.DEMAND)) and driven:
        it = served(data, driven, 5)
        found["direct_percent"] = round(100 * it.direct / it.customers, 4)
        found["one_change_percent"] = round(100 * it.once / it.customers, 4)
        found["line_minutes"] = round(it.minutes, 4)
    return found


def _waits(run: Run) -> None:
    """The best waiting decision, its proof, and what the plain rules cost."""
    penalty = run.point["penalty"]
    run.command("waits", "waits", penalty, "--seconds", run.point["seconds"])
    cost, nodes = trials.saved((run.folder / formats.WAITS.name).read_text())
    run.row.update(waits_cost=cost, waits_nodes=nodes)
    run.row["waits_proof"] = "optimal" if nodes else "not proved optimal"
    run.row["waits_check"] = program.run(run.folder, "check-waits", str(penalty)).last
    rules = run.point.get("rules", [])
    for rule in rules:
        run.set(dm_wait=rule)
        run.make()
        found = statistic(run.folder)
        run.row[f"rule_{rule}"] = found["dm_total_delay"] + penalty * found["dm_missed_changes"]
    if rules:
        run.row["rule_best"] = min(run.row[f"rule_{rule}"] for rule in rules)
