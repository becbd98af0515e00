"""Stops, edges and lines of LinTim, in networks whose edges lead both ways, and in directed ones,
where opposite edges and opposite lines are taken together."""

from collections import Counter
from typing import NamedTuple

from ..faults import Refused
from ..formats import CONCEPT, EDGES, LINE_COSTS, POOL, STOPS, ConceptRow, Edge, PoolRow, Stop
from ..limits import LIMITS
from .pairs import opposite
from .source import MENDED, Notes, Source

DRIVEN = "with --driven only the lines that the concept drives are taken"


class Network(NamedTuple):
    """Stops and edges here, and which edges of LinTim each edge stands for."""

    stops: list[Stop]
    edges: list[Edge]
    twins: dict[int, int]  # of directed edges the one that leads back

    @property
    def is_directed(self) -> bool:
        """Whether LinTim's edges lead one way."""
        return bool(self.twins)

    def here(self, edge: int) -> int:
        """The edge that stands here for one of LinTim."""
        return min(edge, self.twins.get(edge, edge))


def network_of(source: Source, is_directed: bool | None, notes: Notes) -> Network:
    """The network of a folder."""
    stops, edges = source.table(STOPS).rows, source.table(EDGES).rows
    _see_once("stops", [row.stop_id for row in stops])
    _see_once("edges", [row.edge_id for row in edges])
    twins = opposite(edges) if is_directed is not False else {}
    pairs = len(edges) // 2
    if is_directed:
        alone = [edge.edge_id for edge in edges if edge.edge_id not in twins]
        if alone:
            raise Refused(
                f"basis/Edge.giv: the network is directed, and edge {alone[0]} has no opposite one"
                f" of equal length and bounds ({len(alone)} of {len(edges)}); lintim drives each"
                f" edge both ways: add the opposite edges, and {MENDED}"
            )
    elif is_directed is None and edges and len(twins) == len(edges):
        notes.say("no row has ptn_is_undirected, and each edge has an opposite one: directed")
    else:
        twins = {}
    if twins:
        notes.say(f"{len(edges)} directed edges are {pairs} edges that are driven both ways")
    kept = [edge for edge in edges if edge.edge_id <= twins.get(edge.edge_id, edge.edge_id)]
    for kind, count in (("stops", len(stops)), ("edges", len(kept))):
        if count > LIMITS[kind]:
            raise Refused(f"{count} {kind}, and lintim takes {LIMITS[kind]}: take a part of them")
    return Network(stops, kept, twins)


def _see_once(kind: str, ids: list[int]) -> None:
    """Sees that each id is there once."""
    id, count = Counter(ids).most_common(1)[0] if ids else (0, 1)
    if count > 1:
        raise Refused(f"{count} {kind} have the id {id}; {MENDED}")


class Lines(NamedTuple):
    """The lines here with their edges and, where there is a concept, how often each is driven; and
    which line, in which direction, stands here for one of LinTim: `>` is the direction of the pool,
    and an empty one both."""

    edges: dict[int, list[int]]
    frequency: dict[int, int] | None
    here: dict[int, tuple[int, str]]
    costs: dict[int, int]  # of LinTim, in millionths

    def pool_rows(self) -> list[PoolRow]:
        """The rows of the pool."""
        return [
            PoolRow(line, order, edge)
            for line, on in sorted(self.edges.items())
            for order, edge in enumerate(on, 1)
        ]

    def concept_rows(self) -> list[ConceptRow]:
        """The rows of the concept, of lines that are not driven too."""
        often = self.frequency or {}
        return [ConceptRow(*row, often.get(row.line_id, 0)) for row in self.pool_rows()]


def lines_of(source: Source, network: Network, is_driven_only: bool, notes: Notes) -> Lines:
    """The lines of the pool, or of the concept where there is no pool."""
    concept = source.table(CONCEPT).rows if CONCEPT in source else None
    pool = source.table(POOL).rows if POOL in source else None
    ways = _ways(pool if pool is not None else concept or [])
    if pool is None and concept:
        notes.lose("basis/Pool.giv is not there: the lines of the concept are the pool")
    elif pool is None:
        notes.lose("basis/Pool.giv is not there, so there are no lines")
    often = None if concept is None else _frequencies(concept, ways, notes)
    if is_driven_only and often is not None:
        all_lines = len(ways)
        ways = {line: on for line, on in ways.items() if often.get(line)}
        notes.lose(f"only the {len(ways)} lines that are driven are taken, of {all_lines}")
    here = _directions(ways, network)
    kept = {line: on for line, on in ways.items() if here[line][0] == line}
    if len(kept) > LIMITS["lines"]:
        raise Refused(f"{len(kept)} lines, and lintim takes {LIMITS['lines']}: {DRIVEN}")
    edges = {line: [network.here(edge) for edge in on] for line, on in kept.items()}
    _see_edges(edges, network)
    often = None if often is None else _merged(often, here)
    return Lines(edges, often, here, _costs(source, here))


def _ways(rows: list[PoolRow] | list[ConceptRow]) -> dict[int, list[int]]:
    """The edges of each line by their order."""
    found: dict[int, list[tuple[int, int]]] = {}
    for row in rows:
        found.setdefault(row[0], []).append((row[1], row[2]))
    return {line: [edge for _, edge in sorted(on)] for line, on in sorted(found.items())}


def _frequencies(
    rows: list[ConceptRow], ways: dict[int, list[int]], notes: Notes
) -> dict[int, int] | None:
    """How often each line is driven; none where the concept is not one of this pool."""
    often: dict[int, int] = {}
    for row in rows:
        if often.setdefault(row.line_id, row.frequency) != row.frequency:
            raise Refused(
                f"{CONCEPT.name}: line {row.line_id} has two frequencies, {often[row.line_id]} and"
                f" {row.frequency}; {MENDED}"
            )
    for line, on in _ways(rows).items():
        if ways.get(line) != on:
            says = "other edges than in the pool" if line in ways else "no line of the pool"
            notes.lose(f"the concept is not taken: line {line} is {says}")
            return None
    added = len(ways) - len(often)
    if added:
        notes.say(f"{added} lines of the pool that the concept leaves out have the frequency 0")
    return {line: often.get(line, 0) for line in ways}


def _directions(ways: dict[int, list[int]], network: Network) -> dict[int, tuple[int, str]]:
    """Which line stands here for each one of LinTim, and in which direction."""
    if not network.is_directed:
        return {line: (line, "") for line in ways}
    waiting: dict[tuple[int, ...], list[int]] = {}
    here: dict[int, tuple[int, str]] = {}
    for line, on in ways.items():
        back = tuple(network.twins.get(edge, edge) for edge in reversed(on))
        if waiting.get(back):
            other = waiting[back].pop(0)
            here[other], here[line] = (other, ">"), (other, "<")
        else:
            waiting.setdefault(tuple(on), []).append(line)
    alone = [line for line in ways if line not in here]
    if alone:
        raise Refused(
            f"basis/Pool.giv: the network is directed, and line {alone[0]} has no opposite one over"
            f" the opposite edges ({len(alone)} of {len(ways)}); lintim drives each line both ways:"
            f" add the opposite lines, and {MENDED}"
        )
    return here


def _see_edges(edges: dict[int, list[int]], network: Network) -> None:
    """Sees that lines go over edges that are there, none twice."""
    known = {edge.edge_id for edge in network.edges}
    for line, on in edges.items():
        unknown = [edge for edge in on if edge not in known]
        if unknown:
            raise Refused(f"line {line} goes over edge {unknown[0]}, which is not there; {MENDED}")
        if len(set(on)) < len(on):
            raise Refused(
                f"line {line} goes over an edge twice, there and back perhaps, and lintim takes no"
                f" such line: split it, and {MENDED}"
            )


def _merged(often: dict[int, int], here: dict[int, tuple[int, str]]) -> dict[int, int]:
    """How often each line here is driven; opposite lines have one frequency."""
    found: dict[int, int] = {}
    for line, count in often.items():
        at = here[line][0] if line in here else line
        if line in here and found.setdefault(at, count) != count:
            raise Refused(
                f"{CONCEPT.name}: the opposite lines {at} and {line} are driven {found[at]} and"
                f" {count} times, and lintim drives a line equally often both ways; {MENDED}"
            )
    return found


def _costs(source: Source, here: dict[int, tuple[int, str]]) -> dict[int, int]:
    """What each line here costs by the file of LinTim; of opposite lines both together."""
    costs: dict[int, int] = {}
    for row in source.table(LINE_COSTS):
        if row.line_id in here:
            line = here[row.line_id][0]
            costs[line] = costs.get(line, 0) + row.cost
    return costs
