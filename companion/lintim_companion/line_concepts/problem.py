"""The line problem: how often each line is driven, so that no edge has too few or too many drives
and all lines together cost least (Schöbel, Line planning in public transportation, 2012)."""

from typing import NamedTuple

import numpy
from numpy.typing import NDArray

from ..cells import MILLION
from ..dataset import Dataset
from ..faults import Refused
from ..formats import LINE_COSTS, LOADS, PINNED_CONCEPT, POOL, ConceptRow


class ProblemEdge(NamedTuple):
    """An edge, and how often it is driven at least and at most."""

    id: int
    least: int
    most: int


class ProblemLine(NamedTuple):
    """A line, what it costs for each drive in millionths, and the places of its edges."""

    id: int
    cost: int
    edges: list[int]


class LineProblem:
    """Edges with the least and the greatest number of drives, and lines over them with costs."""

    def __init__(self, edges: list[ProblemEdge], lines: list[ProblemLine]) -> None:
        self.edges, self.lines = edges, lines
        self.through: list[list[int]] = [[] for _ in edges]
        self.matrix: NDArray[numpy.float64] = numpy.zeros((len(edges), len(lines)))
        for place, line in enumerate(lines):
            for edge in line.edges:
                self.through[edge].append(place)
                self.matrix[edge, place] = 1
        self.over = [set(lines) for lines in self.through]
        self.costs = numpy.array([line.cost / MILLION for line in lines])

    def cost(self, frequencies: list[int]) -> int:
        """What a concept costs, in millionths."""
        return sum(line.cost * often for line, often in zip(self.lines, frequencies))

    def dear(self, prices: dict[int, int]) -> set[int]:
        """The lines that cost less than the prices of their edges."""
        return {
            place
            for place, line in enumerate(self.lines)
            if sum(prices.get(edge, 0) for edge in line.edges) > line.cost
        }

    def is_feasible(self, frequencies: list[int]) -> bool:
        """Whether no edge has too few or too many drives."""
        return all(
            edge.least <= sum(frequencies[line] for line in lines) <= edge.most
            for edge, lines in zip(self.edges, self.through)
        )

    def greatest(self) -> list[int]:
        """How often each line is driven at most: what the least of its edges allows."""
        return [min(self.edges[edge].most for edge in line.edges) for line in self.lines]


def line_problem(data: Dataset) -> LineProblem:
    """The line problem of a dataset."""
    loads = data[LOADS]
    edges = [
        ProblemEdge(load.edge_id, load.minimal_frequency, load.maximal_frequency) for load in loads
    ]
    place = {edge.id: at for at, edge in enumerate(edges)}
    over = edges_of_lines(data)
    return LineProblem(
        edges,
        [
            ProblemLine(line.line_id, line.cost, [place[edge] for edge in over[line.line_id]])
            for line in data[LINE_COSTS]
        ],
    )


def edges_of_lines(data: Dataset) -> dict[int, list[int]]:
    """The ids of the edges of each line of the pool, in their order."""
    over: dict[int, list[int]] = {}
    for row in data[POOL]:
        over.setdefault(row.line_id, []).append(row.edge_id)
    return over


def concept_rows(problem: LineProblem, frequencies: list[int]) -> list[ConceptRow]:
    """The rows of a line concept."""
    return [
        ConceptRow(line.id, order, problem.edges[edge].id, often)
        for line, often in zip(problem.lines, frequencies)
        for order, edge in enumerate(line.edges, 1)
    ]


def pinned_concept(data: Dataset, problem: LineProblem) -> list[int] | None:
    """The concept that is pinned, where it can be read, fits the problem and keeps all bounds."""
    try:
        pinned = data.get(PINNED_CONCEPT).rows
    except Refused:
        return None
    often = {row.line_id: row.frequency for row in pinned}
    frequencies = [often.get(line.id, 0) for line in problem.lines]
    fits = sorted(concept_rows(problem, frequencies)) == sorted(pinned)
    return frequencies if pinned and fits and problem.is_feasible(frequencies) else None
