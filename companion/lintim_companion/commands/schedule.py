"""`lintim-schedule`: a cheapest vehicle schedule by SciPy, and potentials that prove it; or one in
which vehicles stay with a line. What schedules come to for an operator is told as a table."""

from argparse import Namespace

from .. import dataset, files, program
from ..dataset import Dataset
from ..formats import LINE_COSTS, PINNED_POTENTIALS, PINNED_SCHEDULE, SCHEDULE, TRIPS
from ..manners import Deadline, Talk
from ..rows import number_text
from ..schedules.by_line import line_based
from ..schedules.measures import YearCosts, measures, read_costs, table
from ..schedules.problem import Successors, VehicleProblem, potential_rows, schedule_rows
from ..schedules.problem import vehicle_problem
from ..schedules.solve import cheapest


def run(words: Namespace, talk: Talk) -> int:
    """Finds a cheapest schedule with its proof, and writes both."""
    costs = None if words.costs is None else read_costs(words.costs)
    data = dataset.read(words.folder)
    program.see_kept(words.folder, TRIPS)
    files.see_writable(words.folder, PINNED_SCHEDULE.name)
    begun = Deadline(0)
    problem = vehicle_problem(data)
    successors, u, v = cheapest(problem)
    plan = f"{successors.count(None)} vehicles, cost {number_text(problem.cost(successors))}"
    took = f"proved to be least in {begun.spent():.1f} s"
    found = {"least cost": successors}
    if words.line_based:
        found["line-based"] = pinned = line_based(problem)
        own = f"{pinned.count(None)} vehicles, cost {number_text(problem.cost(pinned))}"
        says = f"line-based: {own}, the least where vehicles stay with a line; without that {plan}"
    else:
        pinned, says = successors, f"{plan}, {took}"
    with files.undisturbed():
        dataset.remove(words.folder, PINNED_POTENTIALS)
        talk.write(words.folder, PINNED_SCHEDULE, list(schedule_rows(problem, pinned)))
        if not words.line_based:
            talk.write(words.folder, PINNED_POTENTIALS, potential_rows(u, v))
    talk.say(f"schedule: {len(problem.trips)} trips, {says}")
    if words.line_based or costs is not None:
        tell(words, talk, data, problem, found, costs)
    names = [PINNED_SCHEDULE.name] + [PINNED_POTENTIALS.name] * (not words.line_based)
    talk.say(f"schedule: written to {' and '.join(names)}")
    if data.settings.pin_vehicles == "no":
        talk.say("schedule: to use it, add the row `pin_vehicles; yes` to basis/Config.cnf")
    return 0


def tell(
    words: Namespace,
    talk: Talk,
    data: Dataset,
    problem: VehicleProblem,
    found: dict[str, Successors],
    costs: YearCosts | None,
) -> None:
    """Tells what the schedules come to, and with them the one that stands in the folder."""
    program.see_kept(words.folder, LINE_COSTS)
    states = program.states(words.folder)
    told = {
        name: (measures(data, schedule_rows(problem, it)), problem.cost(it))
        for name, it in found.items()
    }
    if states.get("vehicles") == "kept":
        rows = data[SCHEDULE].rows
        empty = sum(row.end_time - row.start_time for row in rows if row.type == "EMPTY")
        vehicles = len({row.vehicle for row in rows})
        cost = vehicles * problem.vehicle + empty * problem.empty
        told["as it stands"] = measures(data, rows), cost
    for line in table(told, costs):
        talk.say(f"schedule: {line}")
