"""`lintim-concept`: a cheapest line concept by HiGHS, and a tree that proves it; other models stand
in `concept_models`."""

from argparse import Namespace

from .. import dataset, files, program
from ..faults import TooLong, WrongWords
from ..formats import LINE_COSTS, LOADS, PINNED_CONCEPT, PINNED_TREE
from ..line_concepts.problem import concept_rows, line_problem, pinned_concept
from ..line_concepts.proofs import tree_rows
from ..line_concepts.solve import cheapest, proved
from ..manners import Deadline, Talk
from ..rows import number_text

MODELS = ("cost", "direct", "time", "both")
OTHERS = ("budget", "change_penalty", "points", "table", "picture")


def run(words: Namespace, talk: Talk) -> int:
    """Finds, writes, proves, and writes the proof; or asks another model."""
    if words.model not in MODELS:
        raise WrongWords(f"--model is {words.model}, wanted {', '.join(MODELS)}")
    if words.model != "cost":
        from . import concept_models

        return concept_models.run(words, talk)
    if given := [f"--{name.replace('_', '-')}" for name in OTHERS if vars(words)[name] is not None]:
        raise WrongWords(f"{given[0]} is for the other models, as --model direct")
    data = dataset.read(words.folder)
    program.see_kept(words.folder, LOADS, LINE_COSTS)
    files.see_writable(words.folder, PINNED_CONCEPT.name)
    deadline = Deadline(words.seconds)
    problem = line_problem(data)

    def found(frequencies: list[int]) -> None:
        with files.undisturbed():
            dataset.remove(words.folder, PINNED_TREE)
            talk.write(words.folder, PINNED_CONCEPT, concept_rows(problem, frequencies))

    start = pinned_concept(data, problem)
    half = Deadline(words.seconds / 2)
    frequencies = cheapest(problem, half, talk.progress, found, start)
    says = f"found a concept of cost {number_text(problem.cost(frequencies))}"
    if frequencies is start:
        talk.stands(PINNED_CONCEPT)
        says = says.replace("a concept", "none cheaper than the pinned concept")
    size = f"{len(problem.lines)} lines, {len(problem.edges)} edges"
    talk.say(f"concept: {size}; {says} in {deadline.spent():.1f} s")
    begun = deadline.spent()
    frequencies, nodes = proved(problem, frequencies, deadline, talk.progress, found)
    cost = number_text(problem.cost(frequencies))
    if nodes is None:
        talk.say(f"concept: cost {cost}, not proved in time; it is in {PINNED_CONCEPT.name}")
    else:
        took = deadline.spent() - begun
        tree = f"a tree of {len(nodes)} nodes in {took:.1f} s"
        talk.say(f"concept: cost {cost}, proved to be least by {tree}")
        try:
            talk.write(words.folder, PINNED_TREE, list(tree_rows(problem, nodes)))
            talk.say(f"concept: written to {PINNED_CONCEPT.name} and {PINNED_TREE.name}")
        except TooLong as why:
            talk.say(f"concept: the tree is not written: {why}")
            talk.say(f"concept: written to {PINNED_CONCEPT.name}")
    if data.settings.pin_concept == "no":
        talk.say("concept: to use it, add the row `pin_concept; yes` to basis/Config.cnf")
    return 0
