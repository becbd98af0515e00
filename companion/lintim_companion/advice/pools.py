"""Pools of shortest lines: between which stops they are to be, so that each edge has a line."""

from .. import program
from ..formats import POOL
from .context import Context
from .findings import call

MOST_STOPS = 20


def pool_call(it: Context) -> str:
    """How a pool is printed with which there is a concept, or at least one that has a line over
    each edge; empty where there are not two stops."""
    stops = terminals(it)
    return call(f"lintim pool {' '.join(map(str, stops))} > {POOL.name}") if stops else ""


def terminals(it: Context) -> list[int]:
    """Stops between which shortest lines go over all edges, as far as 20 stops do: the ends of the
    network first, and then those of edges that are left over."""
    neighbours = it.names.neighbours
    stops = [stop for stop in sorted(neighbours) if len(neighbours[stop]) == 1][:MOST_STOPS]
    if len(stops) < 2:
        stops = (stops + [stop for stop in sorted(neighbours) if stop not in stops])[:2]
    while 1 < len(stops) < MOST_STOPS:
        left = _uncovered(it, stops)
        new = [end for edge in left for end in it.names.edges[edge][1:3] if end not in stops]
        if not new:
            return stops if not left or len(stops) > 1 else []
        stops.append(new[0])
    return stops if len(stops) > 1 else []


def _uncovered(it: Context, stops: list[int]) -> list[int]:
    """The edges that no shortest line between some stops has."""
    lines = program.run(it.copy.folder, "pool", *map(str, stops)).lines
    rest = [line.removeprefix("# uncovered; ") for line in lines if line.startswith("# uncovered")]
    return [int(edge) for edge in rest if edge.isdigit() and int(edge) in it.names.edges]


def printed(it: Context, stops: list[int]) -> bytes:
    """The pool between some stops."""
    return program.run(it.copy.folder, "pool", *map(str, stops)).out.encode()


def pool_that_works(it: Context) -> str:
    """How a pool is printed with which there is a concept; empty where none was found."""
    stops = terminals(it)
    if not stops:
        return ""
    last = it.copy.tried(POOL.name, printed(it, stops))
    is_bad = last.startswith(("no solution: concept", "spent: concept"))
    return "" if is_bad else pool_call(it)
