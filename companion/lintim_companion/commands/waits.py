"""`lintim-waits`: a cheapest waiting decision by HiGHS, and a tree that proves it."""

from argparse import Namespace

from .. import dataset, files, program
from ..cells import MILLION
from ..dataset import Dataset
from ..faults import Refused, TooLong
from ..formats import DAY_ACTIVITIES, DAY_EVENTS, SCHEDULE, WAITS
from ..manners import Deadline, Talk
from ..passengers.demand import read_demand
from ..passengers.flows import flows_of
from ..passengers.net import Day as NetDay
from ..passengers.net import Net
from ..waits.compare import line, rows
from ..waits.core import Core
from ..waits.day import Day, read_day
from ..waits.decision import Decision, by_rules, decision, decision_rows, saved_decision
from ..waits.people import by_people, weights_of
from ..waits.solve import cheapest, proved


def run(words: Namespace, talk: Talk) -> int:
    """Finds, writes, proves, and writes the proof."""
    data = dataset.read(words.folder)
    program.see_kept(words.folder, DAY_EVENTS, DAY_ACTIVITIES, SCHEDULE)
    files.see_writable(words.folder, WAITS.name)
    deadline = Deadline(words.seconds)
    day = read_day(data)
    core = Core(day)
    if words.passengers or words.compare:
        return for_people(words, talk, data, day, core, deadline)
    saved, is_told = saved_decision(data, day, core, words.penalty) or (None, False)
    is_told = is_told and judged(words) == "checked"

    def found(decided: Decision) -> None:
        if is_told and saved is not None and decided.cost == saved.cost:
            talk.stands(WAITS)
        else:
            talk.write(words.folder, WAITS, decision_rows(day, decided))

    starts = [] if saved is None else [saved]
    half = Deadline(words.seconds / 2)
    best, is_best = cheapest(core, words.penalty, half, talk.progress, found, starts)
    size = f"{len(day.events)} events, {len(day.changes)} changes, {len(core.changes)} may be"
    plan = f"cost {best.cost}, {len(best.dropped)} dropped, found in {deadline.spent():.1f} s"
    talk.say(f"waits: {size} broken; {plan}")
    rules = by_rules(core, words.penalty)
    costs = ", ".join(str(rule.cost) for rule in rules.values())
    talk.say(f"waits: by the rules {', '.join(rules)}: {costs}")
    begun = deadline.spent()
    best, nodes = proved(core, words.penalty, best, words.nodes, deadline, talk.progress, found)
    if nodes is not None:
        took = f"{len(nodes)} nodes in {deadline.spent() - begun:.1f} s"
        talk.say(f"waits: cost {best.cost}, proved to be least by a tree of {took}")
        try:
            talk.write(words.folder, WAITS, decision_rows(day, best, nodes))
        except TooLong as why:
            talk.say(f"waits: the tree is not written: {why}")
    else:
        says = "HiGHS says that none costs less" if is_best else "it may cost less"
        limit = "in time" if deadline.is_over() else f"within {words.nodes} nodes"
        talk.say(f"waits: cost {best.cost}, not proved {limit}; {says}")
        if not deadline.is_over():
            talk.say("waits: --nodes 5000000 may prove it, in minutes")
    return _ended(words, talk)


def for_people(
    words: Namespace, talk: Talk, data: Dataset, day: Day, core: Core, deadline: Deadline
) -> int:
    """Finds a decision whose changes and arrivals count as many customers as are in them."""
    demand, net = read_demand(data, None), NetDay(data)
    planned = Net(net, net.planned)
    weights = weights_of(day, flows_of(planned, demand, None, talk.progress.tell))
    best = by_people(day, core, weights, words.penalty, deadline, talk.progress)
    if words.compare:
        plain, _ = cheapest(core, words.penalty, deadline, talk.progress)
        optima = {"unweighted": plain.dropped, "passengers": best.dropped}
        for row in rows(day, core, weights, words.penalty, optima, planned, demand):
            talk.say(f"waits: {line(row)}")
    bound = "no bound is known" if best.bound is None else f"none costs less than {best.bound:.1f}"
    least = "HiGHS says that none costs less" if best.is_best else bound
    cost = f"{best.cost / MILLION:.1f} customers and minutes"
    talk.say(f"waits: by passengers: cost {cost}, {len(best.dropped)} dropped; {least}")
    if not words.passengers:
        return 0
    decided = decision(core, words.penalty, best.dropped)
    talk.write(words.folder, WAITS, decision_rows(day, decided))
    talk.say(f"waits: lintim counts each change and each arrival once: cost {decided.cost} there")
    return _ended(words, talk)


def judged(words: Namespace) -> str:
    """What `lintim` says of the decision that is saved."""
    return program.run(words.folder, "check-waits", str(words.penalty)).last


def _ended(words: Namespace, talk: Talk) -> int:
    """Tells what `lintim` says of what was written."""
    said = judged(words)
    if said != "checked":
        raise Refused(f"lintim check-waits {words.penalty} says {said!r} of {WAITS.name}")
    talk.say(f"waits: written to {WAITS.name}; lintim check-waits {words.penalty} says checked")
    return 0
