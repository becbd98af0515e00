"""`lintim-pool`: a pool of lines by shortest paths between terminals, by trees, or by both."""

import itertools
import os
import re
from argparse import Namespace

from .. import dataset, files
from ..dataset import Dataset
from ..demos import pool_rows
from ..faults import Refused, WrongWords
from ..formats import DEMAND, POOL, STOPS
from ..limits import LIMITS
from ..line_concepts.journeys import served
from ..line_pools.candidates import network_of, paths, terminals_of, trees
from ..line_pools.choice import chosen, customers_of
from ..manners import Deadline, Talk

METHODS = ("paths", "trees", "both")
IDS = re.compile(r"\d{1,9}(,\d{1,9})*", re.ASCII)
LINES = 40
EACH = 3  # paths of each two terminals
PENALTY = 5  # minutes for a change, by which ways are told
SHOWN = 10  # edges that are named


def run(words: Namespace, talk: Talk) -> int:
    """Makes candidates, chooses, writes, and tells what customers have of the pool."""
    if words.method not in METHODS:
        raise WrongWords(f"--method is {words.method}, wanted {', '.join(METHODS)}")
    if words.terminals is not None and not IDS.fullmatch(words.terminals):
        raise WrongWords(f"--terminals wants ids as 1,2,4, and not {words.terminals}")
    data = dataset.read(words.folder)
    see_place(words)
    see_demand(data)
    deadline = Deadline(words.seconds)
    graph, most = network_of(data), LINES if words.lines is None else words.lines
    named = [int(stop) for stop in (words.terminals or "").split(",") if stop]
    ends = terminals_of(data, graph, named)
    made = []
    if words.method != "trees":
        each = EACH if words.each is None else words.each
        made += [*paths(graph, ends, each, Deadline(words.seconds / 2), talk.progress)]
    if words.method != "paths":
        made += [*trees(graph, ends, deadline, talk.progress)]
    choice = chosen(graph, made, customers_of(data), most, talk.progress)
    if not choice.lines:
        raise Refused("there is no line between the terminals; name others, or take trees")
    by_edge = [
        [graph.edges[two]["edge"] for two in itertools.pairwise(line)] for line in choice.lines
    ]
    talk.write(words.folder, POOL, pool_rows(by_edge))
    says = f"{len(ends)} terminals, {len(set(made))} candidates"
    talk.say(f"pool: {says}, {len(choice.lines)} lines, by {words.method}")
    tell(words, talk, [graph.edges[edge]["edge"] for edge in choice.uncovered])
    return 0


def see_place(words: Namespace) -> None:
    """Sees that a pool may be written: one that stands there is what somebody wrote."""
    files.see_writable(words.folder, POOL.name)
    if os.path.lexists(words.folder / POOL.name) and not words.replace:
        raise Refused(f"{POOL.name} is there already; --replace writes another one in its place")


def see_demand(data: Dataset) -> None:
    """Sees that each stop of the demand is there."""
    known = {stop.stop_id for stop in data[STOPS]}
    for row in data.get(DEMAND):
        if row.from_stop not in known or row.to_stop not in known:
            stops = f"{row.from_stop}; {row.to_stop}"
            raise Refused(f"{DEMAND.name} has {stops}, and no such stop is there")


def tell(words: Namespace, talk: Talk, uncovered: list[int]) -> None:
    """Tells what no line covers, and what customers have where all lines are driven."""
    if uncovered:
        named = ", ".join(map(str, sorted(uncovered)[:SHOWN]))
        more = f" and {len(uncovered) - SHOWN} more" if len(uncovered) > SHOWN else ""
        talk.say(f"pool: no line covers {len(uncovered)} edges: {named}{more}")
    else:
        talk.say("pool: each edge has a line, but for slower ones between the same stops")
    data = dataset.read(words.folder)
    if len(data.get(DEMAND)):
        it = served(data, {row.line_id for row in data[POOL]}, PENALTY)
        shares = [it.share(part) for part in (it.direct, it.once, it.often, it.lost)]
        told = f"{shares[0]} direct, {shares[1]} one change, {shares[2]} more, {shares[3]} no way"
        talk.say(f"pool: customers where all lines are driven: {told}")
        talk.say(f"pool: {it.minutes:.2f} minutes with {PENALTY} for each change")
    talk.say(f"pool: written to {POOL.name}; lintim takes {LIMITS['lines']} lines at most")
