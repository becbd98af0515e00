"""The datasets of `lintim demo N` as folders: N by N stops on a grid, with a line along each row,
down each column, and around two corners."""

from pathlib import Path

from . import dataset, formats
from .cells import MILLION
from .formats import Demand, Edge, PoolRow, Stop

Place = tuple[int, int]


def grid(size: int) -> dict[int, tuple[Place, Place]]:
    """The edges of a square of stops, by id: the row and the column of their two ends."""
    edges = {}
    for row in range(size):
        for column in range(size - 1):
            across = row * (size - 1) + column + 1
            edges[across] = ((row, column), (row, column + 1))
            edges[size * (size - 1) + across] = ((column, row), (column + 1, row))
    return dict(sorted(edges.items()))


def stop_at(size: int, place: Place) -> int:
    """The id of the stop in a row and a column."""
    return place[0] * size + place[1] + 1


def demo_lines(size: int) -> list[list[int]]:
    """The edges of each line."""
    edges = grid(size)
    across = [
        [edge for edge, (a, b) in edges.items() if a[0] == b[0] == row] for row in range(size)
    ]
    down = [[edge for edge, (a, b) in edges.items() if a[1] == b[1] == at] for at in range(size)]
    if size == 1:
        return []
    return across + down + [across[0] + down[-1], down[0] + across[-1]]


def pool_rows(lines: list[list[int]]) -> list[PoolRow]:
    """The rows of a pool with these lines, numbered from 1."""
    return [
        PoolRow(line, order, edge)
        for line, on in enumerate(lines, 1)
        for order, edge in enumerate(on, 1)
    ]


def grid_stops(size: int) -> list[Stop]:
    """The stops of a grid; where they lie is told by row and column."""
    return [
        Stop(stop_at(size, (row, column)), "s", "s", "0", "0")
        for row in range(size)
        for column in range(size)
    ]


def write_demo(folder: str | Path, size: int) -> None:
    """Writes the dataset of `lintim demo`, from 1 to 8, into a folder."""
    ends = {edge: (stop_at(size, a), stop_at(size, b)) for edge, (a, b) in grid(size).items()}
    edges = [Edge(edge, *two, MILLION, 3 + edge % 3, 4 + edge % 3) for edge, two in ends.items()]
    demand = [
        Demand(a, b, (30 + 37 * edge % 41) * MILLION)
        for edge, two in ends.items()
        for a, b in (two, two[::-1])
    ]
    dataset.write(folder, formats.STOPS, grid_stops(size))
    dataset.write(folder, formats.EDGES, edges)
    dataset.write(folder, formats.POOL, pool_rows(demo_lines(size)))
    dataset.write(folder, formats.DEMAND, demand)
    dataset.write_settings(folder, {})
