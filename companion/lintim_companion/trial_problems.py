"""Line problems that are made from a number, on grids of streets: too hard for the search that is
built into `lintim`, and a measure for other solvers."""

import random
from pathlib import Path
from typing import NamedTuple

from . import dataset, formats
from .cells import MILLION
from .demos import Place, grid, grid_stops, pool_rows, stop_at
from .formats import Edge, Load

Ways = dict[Place, list[tuple[int, Place]]]


class TrialProblem(NamedTuple):
    """A number, how many stops are on a side of the grid, how many lines there are, and how often
    edges are driven: so many drives below and above those of a concept that is made up first; or,
    where there is one number, 1 to so many where a line goes over the edge. On an even grid all
    streets are equally long."""

    number: int
    side: int
    lines: int
    bounds: tuple[int, int] | int
    is_even: bool = False

    @property
    def name(self) -> str:
        """What the problem is, in words."""
        drives = (
            f"1 to {self.bounds} drives"
            if isinstance(self.bounds, int)
            else f"{self.bounds[0]} below, {self.bounds[1]} above"
        )
        even = ", streets of one length" if self.is_even else ""
        return f"number {self.number}, {self.side**2} stops, {self.lines} lines, {drives}{even}"


TRIAL_PROBLEMS = (
    TrialProblem(1, 5, 40, (0, 0)),
    TrialProblem(2, 5, 40, (1, 1)),
    TrialProblem(1, 5, 45, (2, 2)),
    TrialProblem(1, 6, 60, (2, 2)),
    TrialProblem(1, 6, 60, (1, 1)),
    TrialProblem(2, 6, 60, (1, 8)),
    TrialProblem(2, 7, 80, (0, 0)),
    TrialProblem(1, 5, 40, 3),
    TrialProblem(1, 6, 60, 4),
    TrialProblem(1, 8, 120, 6),
)
LONG_PROOF = TrialProblem(1, 7, 80, (0, 0), True)  # found at once, proved in some 20 s
NO_PROOF = TrialProblem(1, 7, 80, (2, 2), True)  # found in seconds, not proved in a minute


def random_line(chance: random.Random, ways: Ways) -> list[int]:
    """A way over three to eight edges that comes to no stop twice."""
    while True:
        at = chance.choice(list(ways))
        seen, on = {at}, []
        for _ in range(chance.randint(3, 8)):
            open_ways = [(edge, to) for edge, to in ways[at] if to not in seen]
            if not open_ways:
                break
            edge, at = chance.choice(open_ways)
            seen.add(at)
            on.append(edge)
        if len(on) >= 3:
            return on


def drives_of(
    problem: TrialProblem, chance: random.Random, lines: list[list[int]]
) -> dict[int, tuple[int, int]]:
    """How often each edge is driven at least and at most."""
    edges = grid(problem.side)
    bounds = problem.bounds
    if isinstance(bounds, int):
        return {edge: (int(any(edge in on for on in lines)), bounds) for edge in edges}
    often = [chance.choice((0, 0, 1, 1, 2, 3)) for _ in lines]
    runs = {edge: sum(f for f, on in zip(often, lines) if edge in on) for edge in edges}
    return {
        edge: (max(0, run - chance.randint(0, bounds[0])), run + chance.randint(0, bounds[1]))
        for edge, run in runs.items()
    }


def write_line_problem(folder: str | Path, problem: TrialProblem) -> None:
    """Writes the dataset of a problem, which ends with the line concept."""
    chance = random.Random(problem.number)
    edges = grid(problem.side)
    ways: Ways = {}
    for edge, (a, b) in edges.items():
        ways.setdefault(a, []).append((edge, b))
        ways.setdefault(b, []).append((edge, a))
    lines = [random_line(chance, ways) for _ in range(problem.lines)]
    rows = []
    for edge, (a, b) in edges.items():
        length = MILLION if problem.is_even else chance.randint(5, 40) * MILLION // 10
        ends = stop_at(problem.side, a), stop_at(problem.side, b)
        rows.append(Edge(edge, *ends, length, 3, 4))
    drives = drives_of(problem, chance, lines)
    dataset.write(folder, formats.STOPS, grid_stops(problem.side))
    dataset.write(folder, formats.EDGES, rows)
    dataset.write(folder, formats.POOL, pool_rows(lines))
    dataset.write(
        folder, formats.GIVEN_LOADS, [Load(edge, 0, *ends) for edge, ends in drives.items()]
    )
    dataset.write_settings(folder, {"load_source": "file", "last_stage": "concept"})
