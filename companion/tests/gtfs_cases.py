"""What tests of feeds share: the command in this process, and datasets with late days."""

import random
from pathlib import Path
from typing import Any

import seeded
from conftest import EXAMPLES
from lintim_companion import dataset, demos, formats, manners, program
from lintim_companion.cells import MILLION
from lintim_companion.commands import gtfs
from lintim_companion.faults import Refused, WrongWords
from lintim_companion.formats import Edge, EventDelay, Load, Stop
from lintim_companion.registry import command

PLACE = "50.0,8.0"
TOWN = program.CHECKOUT / "companion/tests/data/town"
COMMAND = command("lintim-gtfs")
DATASETS = (
    *("market-town", "three-stops", "town", "loops", "demo 3", "demo 5", "demo 8"),
    *("seed 12", "seed 47", "seed 48"),
)


class Said(manners.Talk):
    """What the command says, kept."""

    def __init__(self) -> None:
        super().__init__("lintim-gtfs")
        self.lines: list[str] = []
        self.faults: list[str] = []

    def say(self, line: str) -> None:
        self.lines.append(line)

    def fault(self, why: object) -> int:
        self.faults.append(" ".join(str(why).split()))
        return 1


def run(*words: object) -> tuple[int, list[str], str]:
    """The exit status of the command, the lines that it says, and the line of a fault. What is no
    refusal is raised, as a traceback would be."""
    parsed = manners.parser(COMMAND).parse_args([str(word) for word in words])
    talk = Said()
    try:
        status = gtfs.run(parsed, talk)
    except WrongWords as why:
        talk.fault(f"{why}; see lintim-gtfs --help")
        status = 2
    except Refused as why:
        status = talk.fault(why)
    return status, talk.lines, "".join(talk.faults)


def ran(*words: object) -> list[str]:
    """The lines of a command that ends well."""
    status, lines, fault = run(*words)
    assert (status, fault) == (0, ""), (lines, fault)
    return lines


def late_day(folder: Path, name: str) -> Path:
    """The dataset of a name in a folder, with some late events, and all of its stages made."""
    if name.startswith("demo "):
        demos.write_demo(folder, int(name.removeprefix("demo ")))
    elif name == "loops":
        write_loops(folder)
    elif name.startswith("seed "):
        seeded.write(folder, seeded.dataset(int(name.removeprefix("seed ")), 12))
    else:
        _copy_basis(TOWN if name == "town" else EXAMPLES / name, folder)
    _name_stops(folder)
    make(folder)
    chance = random.Random(name)
    events = list(dataset.read(folder)[formats.DAY_EVENTS])
    late = chance.sample(events, min(len(events), 1 + len(events) // 60, 12))
    rows = [EventDelay(it.event_id, chance.randint(3, 40)) for it in late]
    dataset.write(folder, formats.EVENT_DELAYS, rows)
    make(folder)
    return folder


def write_loops(folder: Path) -> None:
    """Lines that come twice to a stop, so that a trip calls there twice."""
    ends = ((1, 2), (2, 3), (3, 4), (4, 2), (4, 5), (5, 6), (6, 4), (3, 7), (7, 8), (8, 3))
    lines = [[1, 2, 3, 4], [1, 4, 5, 6, 7], [2, 8, 9, 10, 3], [4, 3]]
    stops = [Stop(at, "s", "s", str(at), str(at * at % 7)) for at in range(1, 9)]
    edges = [
        Edge(edge, *two, MILLION, 2 + edge % 3, 3 + edge % 3) for edge, two in enumerate(ends, 1)
    ]
    loads = [Load(it.edge_id, 0, sum(it.edge_id in on for on in lines), 9) for it in edges]
    dataset.write(folder, formats.STOPS, stops)
    dataset.write(folder, formats.EDGES, edges)
    dataset.write(folder, formats.POOL, demos.pool_rows(lines))
    dataset.write(folder, formats.GIVEN_LOADS, loads)
    day: dict[str, int | str] = {"DM_earliest_time": 300, "DM_latest_time": 480}
    of_lines: dict[str, int | str] = {"load_source": "file", "period_length": 20}
    dataset.write_settings(folder, day | of_lines)


def _name_stops(folder: Path) -> None:
    """Gives each stop a name of its own, so that stops at one place stay apart."""
    stops = [
        it._replace(long_name=f"{it.long_name} {it.stop_id}")
        for it in dataset.read(folder)[formats.STOPS]
    ]
    dataset.write(folder, formats.STOPS, stops)


def _copy_basis(source: Path, folder: Path) -> None:
    (folder / "basis").mkdir(parents=True)
    for path in (source / "basis").iterdir():
        if path.name != "Pool-Cost.giv":
            (folder / "basis" / path.name).write_bytes(path.read_bytes())


def make(folder: Path) -> None:
    """Runs `lintim make`, which has to end well."""
    answer = program.run(folder, "make")
    assert answer.status == 0, answer.out


def journey(folder: Path, start: Any, end: Any, begin: int, times: str) -> int | None:
    """When `lintim` says that a customer arrives."""
    answer = program.run(folder, "journey", str(start), str(end), str(begin), times)
    assert answer.status == 0, answer
    rides = [line for line in answer.lines if line.startswith("ride; ")]
    return int(rides[-1].rpartition("; ")[2]) if rides else None
