"""Trees of regions which prove that no line concept costs less than a target: grown and tested.

A region needs no further split where it has no concept at all, or where each concept in it costs
enough, as prices of edges prove. HiGHS finds good prices; they are rounded to whole millionths so
that no line is exceeded, and each bound is added up in whole numbers before it is used.
"""

from collections.abc import Iterator

from ..cells import MILLION
from ..formats import BranchRow
from ..manners import Deadline, Progress, searched
from .problem import LineProblem
from .regions import OVER, UNDER, BoundBy, Empty, Leaf, Node, Point, Prices, Region, Split, Step


class Late(Exception):
    """The time is over."""


class Cheaper(Exception):
    """A concept that costs less was met."""

    def __init__(self, frequencies: list[int]) -> None:
        super().__init__(frequencies)
        self.frequencies = frequencies


class Proof:
    """A tree which proves that no concept costs less than a target, as far as it is grown."""

    def __init__(self, problem: LineProblem, target: int, deadline: Deadline) -> None:
        self.problem, self.target, self.deadline = problem, target, deadline
        self.nodes: list[Node] = []
        self.todo: list[tuple[Region, Prices] | Leaf] = [(Region.root(problem), {})]

    def grow(self, progress: Progress) -> list[Node]:
        """Grows the whole tree, the lower part of each split first."""
        while self.todo:
            item = self.todo.pop()
            if isinstance(item, tuple):
                self.visit(*item)
            else:
                self.nodes.append(item)
            if self.deadline.is_over():
                raise Late()
            progress.tell(self.said)
        return self.nodes

    def said(self) -> str:
        """How far the proof is, in words."""
        parts = (item for item in self.todo if isinstance(item, tuple))
        bounds = (region.bound(prices) or region.cost() for region, prices in parts)
        found, bound = (value / MILLION for value in (self.target, min([self.target, *bounds])))
        gap = (found - bound) / found if found else 0.0
        return f"{searched(f'{found:g}', f'{bound:g}', gap)}, {len(self.nodes)} nodes"

    def visit(self, region: Region, prices: Prices) -> None:
        """Puts a leaf for a region, or splits it."""
        if self.put_leaf(region, prices):
            return
        tight, steps, prices, more = self.narrowest(region)
        chosen: list[Step] = []
        for wanted in self.choices(tight, steps, prices):
            chosen = needed(self.problem, steps, wanted)
            if self.is_settled(after(region, chosen), prices):
                self.put_leaf(self.narrowed(region, chosen), prices)
                return
        region = self.narrowed(region, chosen)
        split = self.best_split(region, prices, more)
        self.nodes.append(split)
        upper = region.part(split.line, split.at + 1, region.high[split.line])
        lower = region.part(split.line, region.low[split.line], split.at)
        self.todo += [(upper, prices), (lower, prices)]

    def narrowest(
        self, region: Region, rounds: int = 5
    ) -> tuple[Region, list[Step], Prices, list[float]]:
        """The region narrowed by edges and by prices in turn, the steps, and the last prices."""
        tight, steps = region.copy(), []
        prices: Prices = {}
        more = [0.0] * len(self.problem.lines)
        for _ in range(rounds):
            steps += tight.tighten()
            if tight.empty_edge() is not None or tight.is_point():
                break
            prices, more = tight.best_prices()
            gap = self.target - (tight.bound(prices) or 0)
            cuts = tight.cut(prices, gap) if gap > 0 else []
            if not cuts:
                break
            steps += cuts
        return tight, steps, prices, more

    def choices(self, tight: Region, steps: list[Step], prices: Prices) -> Iterator[set[int]]:
        """Places of the steps that may be enough, and last those with which the region is split."""
        last = {(step.line, step.side): place for place, step in enumerate(steps)}
        empty = tight.empty_edge()
        if empty is not None:
            yield {
                place
                for (line, side), place in last.items()
                if line in self.problem.over[empty.edge] and side != empty.side
            }
        if empty is not None or tight.is_point():
            yield set(last.values())
            return
        dear = [line for line in self.problem.dear(prices) if not tight.is_free(line)]
        fixed = {last[key] for line in dear for key in ((line, UNDER), (line, OVER)) if key in last}
        yield fixed
        yield fixed | {place for (_, side), place in last.items() if side == UNDER}

    def narrowed(self, region: Region, steps: list[Step]) -> Region:
        """The region after some steps, each of them put as a split of which one part is settled at
        once."""
        region = region.copy()
        for step in steps:
            low, high = region.low[step.line], region.high[step.line]
            if step.side == UNDER and low < step.value:
                self.nodes += [Split(step.line, step.value - 1), step.leaf]
            elif step.side == OVER and step.value < high:
                self.nodes.append(Split(step.line, step.value))
                self.todo.append(trimmed(step.leaf, region))
            region.take(step)
        return region

    def is_settled(self, region: Region, prices: Prices) -> bool:
        """Whether a region needs no further split."""
        is_empty = region.empty_edge() is not None
        return is_empty or self.proves(region, prices) or region.is_point()

    def proves(self, region: Region, prices: Prices) -> bool:
        """Whether prices show that no concept of the region costs less than the target."""
        value = region.bound(prices)
        return value is not None and value >= self.target

    def put_leaf(self, region: Region, prices: Prices) -> bool:
        """Puts the leaf that settles a region, if one does."""
        empty = region.empty_edge()
        if empty is not None:
            self.nodes.append(empty)
        elif self.proves(region, prices):
            self.nodes.append(trimmed(BoundBy(prices), region))
        elif region.is_point():
            if region.cost() < self.target:
                raise Cheaper(region.low)
            self.nodes.append(Point())
        else:
            return False
        return True

    def best_split(self, region: Region, prices: Prices, more: list[float]) -> Split:
        """The line to split, and where: what raises the bound most in both parts, among some lines
        that are tried until two in turn are no better."""
        base = region.bound(prices) or 0
        best, best_score, worse = None, -1, 0
        for line in self.candidates(region, more):
            at, gains = region.low[line], []
            for low, high in ((at, at), (at + 1, region.high[line])):
                part, _, found, _ = self.narrowest(region.part(line, low, high), rounds=1)
                value = self.target if self.is_settled(part, {}) else part.bound(found) or 0
                gains.append(min(value, self.target) - base)
            score = max(gains[0], 1) * max(gains[1], 1)
            worse = 0 if score > best_score else worse + 1
            if score > best_score:
                best, best_score = Split(line, at), score
            if worse == 2:
                break
        assert best is not None
        return best

    def candidates(self, region: Region, more: list[float]) -> list[int]:
        """Some lines that may be split: those first over edges that the frequencies of HiGHS drive
        too often, and those that it gave fractions of."""
        problem = self.problem
        often = [low + value for low, value in zip(region.low, more)]
        crowded = [
            sum(often[line] for line in lines) > edge.most + 1e-6
            for edge, lines in zip(problem.edges, problem.through)
        ]

        def rank(place: int) -> tuple[bool, bool, float, int]:
            line = problem.lines[place]
            part = abs(more[place] - round(more[place]))
            is_crowded = more[place] > 1e-6 and any(crowded[edge] for edge in line.edges)
            return (not is_crowded, part < 1e-6, -part * line.cost, -line.cost)

        free = filter(region.is_free, range(len(problem.lines)))
        return sorted(free, key=rank)[:8]


def after(region: Region, steps: list[Step]) -> Region:
    """The region after some steps."""
    region = region.copy()
    for step in steps:
        region.take(step)
    return region


def trimmed(leaf: Empty | BoundBy, region: Region) -> Leaf:
    """A leaf without prices of edges that have enough drives."""
    if isinstance(leaf, Empty):
        return leaf
    edges = region.problem.edges
    return BoundBy(
        {
            edge: price
            for edge, price in leaf.prices.items()
            if edges[edge].least > region.least[edge]
        }
    )


def needed(problem: LineProblem, steps: list[Step], wanted: set[int]) -> list[Step]:
    """The steps at some places, and those that they rest on. Where an edge shows that a line has to
    run more often, that rests on others over it which were found to run less often before, and
    the other way round; where prices show it, on lines that were raised or left one frequency."""
    wanted = set(wanted)
    for later in range(len(steps) - 1, -1, -1):
        if later not in wanted:
            continue
        line, _, _, leaf = steps[later]
        dear = problem.dear(leaf.prices) if isinstance(leaf, BoundBy) else set()
        for place, step in enumerate(steps[:later]):
            if isinstance(leaf, BoundBy):
                rests = step.side == UNDER or step.line in dear
            else:
                is_other = step.line != line and step.side != leaf.side
                rests = is_other and step.line in problem.over[leaf.edge]
            if rests:
                wanted.add(place)
    return [step for place, step in enumerate(steps) if place in wanted]


def is_proof(problem: LineProblem, target: int, nodes: list[Node]) -> bool:
    """Whether nodes are one whole tree each leaf of which settles its region, in whole numbers."""
    todo = [Region.root(problem)]
    for node in nodes:
        if not todo:
            return False
        region = todo.pop()
        if isinstance(node, Split):
            if not region.low[node.line] <= node.at < region.high[node.line]:
                return False
            todo.append(region.part(node.line, node.at + 1, region.high[node.line]))
            todo.append(region.part(node.line, region.low[node.line], node.at))
        elif not _is_leaf(problem, target, region, node):
            return False
    return not todo


def _is_leaf(problem: LineProblem, target: int, region: Region, node: Leaf) -> bool:
    """Whether a leaf settles its region."""
    if isinstance(node, Empty):
        edge = problem.edges[node.edge]
        if node.side == OVER:
            return region.least[node.edge] > edge.most
        return region.most[node.edge] < edge.least
    if isinstance(node, BoundBy):
        value = region.bound(node.prices)
        return value is not None and value >= target and min(node.prices.values(), default=1) > 0
    return region.is_point() and region.cost() >= target


def tree_rows(problem: LineProblem, nodes: list[Node]) -> Iterator[BranchRow]:
    """The rows of a tree."""
    for node in nodes:
        if isinstance(node, Split):
            yield BranchRow("split", problem.lines[node.line].id, node.at, 0)
        elif isinstance(node, Empty):
            yield BranchRow("empty", problem.edges[node.edge].id, node.side, 0)
        elif isinstance(node, BoundBy):
            yield BranchRow("bound", len(node.prices), 0, 0)
            for edge, price in node.prices.items():
                yield BranchRow("mult", problem.edges[edge].id, 0, price)
        else:
            yield BranchRow("point", 0, 0, 0)
