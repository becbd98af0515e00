"""Demand, loads and costs of lines of LinTim, and where they differ from what `lintim` makes."""

from ..cells import MILLION
from ..faults import Refused
from ..formats import DEMAND, GIVEN_LOADS, LINE_COSTS, Demand, Load, Settings
from ..limits import LIMITS
from ..rows import number_text
from .forms import LOADS
from .network import Lines, Network
from .source import MENDED, Notes, Source

UNBOUND = (0, 1_000)  # frequencies with which every concept is one


def demand_of(source: Source, notes: Notes) -> list[Demand]:
    """The rows of demand; where there are too many, without those that say nothing."""
    if DEMAND not in source:
        notes.lose(f"{DEMAND.name} is not there, so nobody travels")
        return []
    rows = source.table(DEMAND).rows
    most = LIMITS["demand rows"]
    if len(rows) > most:
        kept = [it for it in rows if it.customers and it.from_stop != it.to_stop]
        notes.say(f"{len(rows) - len(kept)} rows of demand of nobody or to the same stop are out")
        rows = kept
    if len(rows) > most and GIVEN_LOADS not in source:
        raise Refused(
            f"{DEMAND.name} has {len(rows)} rows with customers, and lintim takes {most}: let"
            f" LinTim make basis/Load.giv, with which demand is not read"
        )
    if len(rows) > most:
        notes.lose(f"{len(rows)} rows of demand stay, and lintim takes {most} where it reads them")
    total = number_text(sum(it.customers for it in rows))
    notes.say(f"{len(rows)} rows of demand, {total} customers")
    return rows


def loads_of(source: Source, network: Network, notes: Notes) -> list[Load] | None:
    """The loads; of opposite edges the sum, the greatest least frequency and the least greatest
    one. None where the file is not there."""
    if GIVEN_LOADS not in source:
        notes.say("basis/Load.giv is not there: loads come from demand, as lintim makes them")
        return None
    found: dict[int, Load] = {}
    cut = 0
    for there in source.table(LOADS):
        edge = network.here(there.edge_id)
        row = Load(*there[:3], min(there.maximal_frequency, UNBOUND[1]))
        cut += row.maximal_frequency != there.maximal_frequency
        if edge in found and not network.is_directed:
            raise Refused(f"{GIVEN_LOADS.name} has two rows of edge {row.edge_id}; {MENDED}")
        found[edge] = _together(found[edge], row) if edge in found else row._replace(edge_id=edge)
    for edge in (it.edge_id for it in network.edges):
        if edge not in found:
            raise Refused(f"{GIVEN_LOADS.name} has no row of edge {edge}; {MENDED}")
        if found[edge].maximal_frequency < found[edge].minimal_frequency:
            raise Refused(
                f"{GIVEN_LOADS.name}: edge {edge} is to be driven at least more often"
                f" than at most; {MENDED}"
            )
    if cut:
        notes.say(f"{cut} maximal frequencies above {UNBOUND[1]} are {UNBOUND[1]} here")
    return [found[edge] for edge in sorted(found)]


def _together(one: Load, other: Load) -> Load:
    return Load(
        one.edge_id,
        one.load + other.load,
        max(one.minimal_frequency, other.minimal_frequency),
        min(one.maximal_frequency, other.maximal_frequency),
    )


def tell_loads(given: list[Load], made: list[Load], notes: Notes) -> None:
    """Tells the first edge whose load of demand is another one."""
    of_demand = {row.edge_id: row for row in made}
    others = [row for row in given if row != of_demand.get(row.edge_id)]
    if not others:
        notes.say("loads are those that lintim makes of the demand")
        return
    first, by_demand = others[0], of_demand.get(others[0].edge_id)
    says = f"edge {first.edge_id} has {_load_words(first)}"
    if by_demand:
        says += f", and of the demand {_load_words(by_demand)}"
    notes.say(f"loads of {len(others)} of {len(given)} edges are not those of the demand: {says}")


def _load_words(load: Load) -> str:
    often = f"{load.minimal_frequency} to {load.maximal_frequency} drives"
    return f"{number_text(load.load)} customers and {often}"


def cost_here(length: int, edges: int, settings: Settings) -> int:
    """What a line costs by the three keys, in millionths, as stage cost makes it."""
    by_length = settings.lpool_costs_length * length // MILLION
    return settings.lpool_costs_fixed + by_length + settings.lpool_costs_edges * edges


def tell_costs(lines: Lines, network: Network, settings: Settings, notes: Notes) -> bool:
    """Tells the first line whose cost by the keys is another one, and whether there is one."""
    length = {edge.edge_id: edge.length for edge in network.edges}
    others = []
    for line, cost in sorted(lines.costs.items()):
        on = lines.edges.get(line, [])
        here = cost_here(sum(length[edge] for edge in on), len(on), settings)
        rounded = (len(on) + 1) * (2 + settings.lpool_costs_length // MILLION)
        if abs(here - cost) > rounded:  # digits after the sixth one are cut
            others.append((line, cost, here))
    if others:
        line, cost, here = others[0]
        notes.lose(
            f"{LINE_COSTS.name}: costs of lines are made of three keys here, and {len(others)} of"
            f" {len(lines.costs)} differ: line {line} costs {number_text(cost)}, here"
            f" {number_text(here)}"
        )
    return bool(others)


def cost_of(lines: Lines, costs: dict[int, int]) -> int:
    """What the concept costs by costs of lines."""
    often = lines.frequency or {}
    return sum(costs.get(line, 0) * count for line, count in often.items())


def broken_edges(lines: Lines, loads: list[Load]) -> list[tuple[Load, int]]:
    """The edges that the concept drives too rarely or too often, with how often it does."""
    drives: dict[int, int] = {}
    for line, count in (lines.frequency or {}).items():
        for edge in lines.edges.get(line, []):
            drives[edge] = drives.get(edge, 0) + count
    return [
        (load, drives.get(load.edge_id, 0))
        for load in loads
        if not load.minimal_frequency <= drives.get(load.edge_id, 0) <= load.maximal_frequency
    ]
