"""Folders in LinTim's form: the one of `data/lintim`, which was made by hand and stands beside its
Global-Config, and edits of it, one for each way in which LinTim's datasets differ from those here.
What they look like is written down after LinTim's handbook, from memory."""

import random
import re
import shutil
from collections.abc import Callable
from pathlib import Path

from mistakes import CONFIG, EDGE, LOAD, POOL, Edit

DATA = Path(__file__).parent / "data/lintim"
GLOBAL = "../Global-Config.cnf"
COST = "basis/Pool-Cost.giv"
CONCEPT = "line-planning/Line-Concept.lin"
EVENTS = "timetabling/Events-periodic.giv"
ACTIVITIES = "timetabling/Activities-periodic.giv"
TIMES = "timetabling/Timetable-periodic.tim"
DAY_EVENTS = "delay-management/Events-expanded.giv"
DAY_ACTIVITIES = "delay-management/Activities-expanded.giv"
TRIPS = "delay-management/Trips.giv"
SCHEDULE = "vehicle-scheduling/Vehicle_Schedules.vs"
DELAYS = "delay-management/Delays-Events.giv"
LATE_TRIPS = "delay-management/Delays-Activities.giv"
Cells = list[str]


def toy(place: Path, *edits: Edit) -> Path:
    """The folder of LinTim, edited, with the Global-Config where its config looks for it."""
    shutil.copytree(DATA, place)
    folder = place / "datasets/toy"
    for edit in edits:
        edit(folder)
    return folder


def rows(name: str, how: Callable[[Cells], Cells | None]) -> Edit:
    """Other rows of a table; a row that is none goes."""

    def edit(folder: Path) -> None:
        head, *lines = (folder / name).read_text().splitlines()
        found = [how([cell.strip() for cell in line.split(";")]) for line in lines]
        text = [head, *("; ".join(cells) for cells in found if cells is not None)]
        (folder / name).write_text("\n".join(text) + "\n")

    return edit


def times(name: str, factor: int, *places: int) -> Edit:
    """Numbers of some columns multiplied."""

    def how(cells: Cells) -> Cells:
        return [str(int(it) * factor) if at in places else it for at, it in enumerate(cells)]

    return rows(name, how)


def windows(folder: Path) -> None:
    """Line ends of Windows in all files."""
    for path in folder.rglob("*.*"):
        path.write_bytes(path.read_bytes().replace(b"\n", b"\r\n"))


def finer(folder: Path) -> None:
    """Ten time units a minute: all bounds and times have ten times as many; seconds stay."""
    for name, places in ((EDGE, (4, 5)), (ACTIVITIES, (4, 5)), (TIMES, (1,))):
        times(name, 10, *places)(folder)
    text = (folder / CONFIG).read_text()
    for key in ("minimal_waiting", "maximal_waiting", "minimal_change", "maximal_change"):
        value = {"minimal_waiting": 1, "maximal_waiting": 3, "minimal_change": 4}.get(key, 63)
        text += f"ean_default_{key}_time; {value * 10}\n"
    text += "period_length; 600\ntime_units_per_minute; 10\nvs_turn_over_time; 50\n"
    (folder / CONFIG).write_text(text + "DM_earliest_time; 21600\nDM_latest_time; 28740\n")


def directed(folder: Path) -> None:
    """The same network with an edge, a line and a row of loads for each direction."""
    edges = [it.split("; ") for it in (folder / EDGE).read_text().splitlines()[1:]]
    doubled = edges + [[str(int(a) + 10), c, b, *more] for a, b, c, *more in edges]
    _write(folder, EDGE, doubled)
    loads = [it.split("; ") for it in (folder / LOAD).read_text().splitlines()[1:]]
    half = [[a, str(float(b) / 2), *more] for a, b, *more in loads]
    _write(folder, LOAD, half + [[str(int(a) + 10), *more] for a, *more in half])
    of_line: dict[str, list[Cells]] = {}
    for row in (folder / CONCEPT).read_text().splitlines()[1:]:
        of_line.setdefault(row.split("; ")[0], []).append(row.split("; "))
    concept = [row for on in of_line.values() for row in on]
    concept = [[line, at, _way(line, edge, 0), often] for line, at, edge, often in concept]
    for line, on in of_line.items():
        for at, (_, _, edge, often) in enumerate(reversed(on), 1):
            concept.append([str(int(line) + 10), str(at), _way(line, edge, 10), often])
    _write(folder, CONCEPT, concept)
    _write(folder, POOL, [row[:3] for row in concept])
    costs = [it.split("; ") for it in (folder / COST).read_text().splitlines()[1:]]
    _write(folder, COST, costs + [[str(int(a) + 10), *more] for a, *more in costs])
    rows(EVENTS, _other_line)(folder)
    with open(folder / CONFIG, "a") as file:
        file.write("ptn_is_undirected; false\n")


def _other_line(it: Cells) -> Cells:
    """An event of the way back as one of a line of its own."""
    return it[:3] + [str(int(it[3]) + 10), it[4], ">", it[6]] if it[5] == "<" else it


def _way(line: str, edge: str, back: int) -> str:
    """The directed edge over which a line goes, or goes back: line 4 alone goes against edges."""
    return str(int(edge) + (back if line != "4" else 10 - back))


def _write(folder: Path, name: str, found: list[Cells]) -> None:
    head = (folder / name).read_text().splitlines()[0]
    (folder / name).write_text("\n".join([head, *map("; ".join, found)]) + "\n")


# Which columns of which files hold ids of periodic events, of periodic activities, of events and of
# activities of the day.
IDS: dict[str, dict[str, tuple[int, ...]]] = {
    "event": {
        EVENTS: (0,),
        ACTIVITIES: (2, 3),
        TIMES: (0,),
        DAY_EVENTS: (1,),
        TRIPS: (1, 5),
        SCHEDULE: (5, 9),
    },
    "activity": {ACTIVITIES: (0,), DAY_ACTIVITIES: (1,)},
    "day": {
        DAY_EVENTS: (0,),
        DAY_ACTIVITIES: (3, 4),
        TRIPS: (0, 4),
        SCHEDULE: (4, 8),
        DELAYS: (0,),
    },
    "day activity": {DAY_ACTIVITIES: (0,), LATE_TRIPS: (0,)},
}


def renumbered(seed: int) -> Edit:
    """Other numbers of all events and activities, and rows in another order."""

    def edit(folder: Path) -> None:
        chance = random.Random(seed)
        for of_files in IDS.values():
            offset = chance.randint(0, 5_000)
            new: dict[str, str] = {}
            first, *_ = of_files
            ids = [row.split(";")[0].strip() for row in _rows(folder, first)]
            for old, number in zip(ids, chance.sample(range(len(ids)), len(ids))):
                new[old] = str(number + offset)
            for name, places in of_files.items():
                if (folder / name).exists():
                    rows(name, lambda it: _with(it, places, new))(folder)
        for name in {name for of_files in IDS.values() for name in of_files}:
            if (folder / name).exists():
                found = _rows(folder, name)
                chance.shuffle(found)
                _write(folder, name, [row.split("; ") for row in found])

    return edit


def _with(cells: Cells, places: tuple[int, ...], new: dict[str, str]) -> Cells:
    return [new[it] if at in places else it for at, it in enumerate(cells)]


def _rows(folder: Path, name: str) -> list[str]:
    path = folder / name
    return path.read_text().splitlines()[1:] if path.exists() else []


def without(*names: str) -> Edit:
    """Files go."""

    def edit(folder: Path) -> None:
        for name in names:
            (folder / name).unlink()

    return edit


def told_cost(lines: list[str], plan: str) -> float:
    """The cost that a verdict tells of a plan."""
    line = next(it for it in lines if it.startswith(f"judge: {plan}: kept"))
    found = re.search(r"it costs ([0-9.]+)[,;]", line)
    assert found
    return float(found[1])
