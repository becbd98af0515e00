"""Line concepts of least cost: found by HiGHS, and proved by a tree."""

from collections.abc import Callable

from .. import highs
from ..cells import MILLION
from ..faults import Refused
from ..manners import Deadline, Progress
from .problem import LineProblem
from .proofs import Cheaper, Late, Proof, is_proof
from .regions import Node

Found = Callable[[list[int]], None]


def cheapest(
    problem: LineProblem,
    deadline: Deadline,
    progress: Progress,
    found: Found = lambda _: None,
    start: list[int] | None = None,
) -> list[int]:
    """A concept of least cost, as HiGHS says, or the best that it has where time is over. Each one
    that is cheaper than those before, and than a first one that is given, is handed to `found`."""
    if not problem.lines:
        if not problem.is_feasible([]):
            raise Refused("there are no lines, and some edge is to be driven")
        found([])
        return []
    best = start

    def take(answer: highs.Answer) -> None:
        nonlocal best
        frequencies = [round(value) for value in answer.values or []]
        if not problem.is_feasible(frequencies):
            raise Refused("the concept that HiGHS gave breaks the bounds of an edge")
        if best is None or problem.cost(frequencies) < problem.cost(best):
            best = frequencies
            found(best)

    answer = highs.solve(_mixed(problem), deadline, progress, take)
    if answer.is_infeasible:
        raise Refused("no concept keeps the bounds of all edges, HiGHS says")
    if best is None:
        raise Refused(
            f"no concept was found in {deadline.spent():.0f} s; HiGHS says: {answer.says}"
        )
    return best


def _mixed(problem: LineProblem) -> highs.Mixed:
    count = len(problem.lines)
    return highs.Mixed(
        costs=[line.cost / MILLION for line in problem.lines],
        low=[0.0] * count,
        high=[float(most) for most in problem.greatest()],
        is_whole=[True] * count,
        cells=[
            highs.Cell(edge, line, 1) for line, it in enumerate(problem.lines) for edge in it.edges
        ],
        least=[edge.least for edge in problem.edges],
        most=[edge.most for edge in problem.edges],
    )


def proved(
    problem: LineProblem,
    frequencies: list[int],
    deadline: Deadline,
    progress: Progress,
    found: Found = lambda _: None,
) -> tuple[list[int], list[Node] | None]:
    """A concept of least cost, and the tree that proves it, or none where time is over. A cheaper
    concept that is met on the way takes the place of the first one."""
    while True:
        try:
            nodes = Proof(problem, problem.cost(frequencies), deadline).grow(progress)
        except Cheaper as other:
            frequencies = other.frequencies
            found(frequencies)
        except Late:
            return frequencies, None
        else:
            if not is_proof(problem, problem.cost(frequencies), nodes):
                raise Refused("the tree is no proof, and is not written; the concept is")
            return frequencies, nodes
