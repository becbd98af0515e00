"""Trees which prove that no waiting decision costs less than a target.

A region is what is decided so far. No decision in it costs less than the delay of all arrivals at
the least times of what it keeps, and the penalties for what it drops. Where that reaches the target
the region is a leaf; else a change that the times break is decided, kept first and then dropped:
the one that would make arrivals latest, for which one of the two parts ends soonest.
"""

from typing import NamedTuple

from ..manners import Deadline, Progress, searched
from .core import Core, Rise

LEAF = 0
MOST_KNOWN = 2_000_000  # events that may be remembered of what grows, some 300 MB


class Late(Exception):
    """The time is over, or the tree is too large."""


class Cheaper(Exception):
    """A decision that costs less was met: the ids of the changes that it drops."""

    def __init__(self, dropped: set[int]) -> None:
        super().__init__(dropped)
        self.dropped = dropped


class Undo(NamedTuple):
    """What a decision changed: a change that was kept or dropped, the times and the bound before,
    and what was known then."""

    change: int
    times: dict[int, int]
    bound: int
    known: dict[int, Rise]
    stored: int


class Tree:
    """A tree in the making: the region that is looked at, and what is known of it."""

    def __init__(self, core: Core, penalty: int, target: int, deadline: Deadline) -> None:
        self.core, self.penalty, self.target, self.deadline = core, penalty, target, deadline
        self.times = core.least[:]
        self.bound = core.delay
        self.kept = [False] * len(core.changes)
        self.dropped = [False] * len(core.changes)
        self.nodes: list[int] = []
        self.known: dict[int, Rise] = {}  # by changes, what grows here where they are kept
        self.stored = 0  # how many events that has, here and above
        self.broken = {
            at for at, change in enumerate(core.changes) if core.is_broken(change, self.times)
        }

    def grow(self, most: int, progress: Progress) -> list[int]:
        """The nodes of the whole tree, in preorder: the id of the change that is split, or 0 for a
        leaf."""
        path: list[tuple[Undo, bool]] = []  # how to go back, and whether a change was kept last
        is_open = True
        while is_open:
            if self.bound >= self.target:
                self.nodes.append(LEAF)
                is_open = self.go_on(path)
            else:
                path.append(self.split())
            if len(self.nodes) > most:
                raise Late()
            progress.tell(lambda: self.said(path))
        return self.nodes

    def said(self, path: list[tuple[Undo, bool]]) -> str:
        """How far the proof is, in words."""
        bounds = (undo.bound + self.penalty for undo, is_kept in path if is_kept)
        bound = min([self.target, self.bound, *bounds])
        gap = (self.target - bound) / self.target if self.target else 0.0
        return f"{searched(str(self.target), str(bound), gap)}, {len(self.nodes)} nodes"

    def split(self) -> tuple[Undo, bool]:
        """Splits the region: goes to the part that keeps the change, or, where this is a leaf, puts
        that leaf and goes to the part that drops it."""
        change, rise = self.choice()
        self.nodes.append(self.core.changes[change].id)
        if self.bound + rise.grown < self.target:
            return self.keep(change, rise), True
        self.nodes.append(LEAF)
        return self.drop(change), False

    def go_on(self, path: list[tuple[Undo, bool]]) -> bool:
        """Goes to the next region that is open: the part that drops the last change which was
        kept, where this is no leaf; false where there is none."""
        while path:
            undo, is_kept = path.pop()
            self.go_back(undo)
            if is_kept:
                if self.bound + self.penalty < self.target:
                    path.append((self.drop(undo.change), False))
                    return True
                self.nodes.append(LEAF)
        return False

    def choice(self) -> tuple[int, Rise]:
        """The broken change for which arrivals would be latest, and what grows there."""
        gap = self.target - self.bound
        best = max(self.known.items(), key=lambda item: item[1].grown, default=None)
        if best is not None and best[1].grown >= gap:
            return best
        for at in sorted(self.broken - self.known.keys()):
            if self.deadline.is_over():
                raise Late()
            rise = self.rise(at, gap)
            if best is None or rise.grown > best[1].grown:
                best = at, rise
            if rise.grown >= gap:
                break
        if best is None:
            dropped = (at for at, is_dropped in enumerate(self.dropped) if is_dropped)
            raise Cheaper({self.core.changes[at].id for at in dropped})
        return best

    def rise(self, change: int, gap: int) -> Rise:
        """What grows where a change is kept; it is remembered while there is room."""
        self.kept[change] = True
        rise = self.core.raised(self.times, self.kept, self.core.changes[change], gap)
        self.kept[change] = False
        if self.stored + len(rise.seen) <= MOST_KNOWN:
            self.stored += len(rise.seen)
            self.known[change] = rise
        return rise

    def keep(self, change: int, rise: Rise) -> Undo:
        """Keeps a change of which it is known what grows. What is known of others stays so where
        they do not meet it."""
        times = {at: self.times[at] for at in rise.later}
        undo = Undo(change, times, self.bound, self.known, self.stored)
        first = self.core.changes[change].first
        self.known = {
            at: other
            for at, other in self.known.items()
            if first not in other.later
            and self.core.changes[at].first not in rise.later
            and other.seen.isdisjoint(rise.later)
        }
        self.kept[change] = True
        self.bound += rise.grown
        self.put(rise.later)
        return undo

    def drop(self, change: int) -> Undo:
        """Drops a change; what is known of others stays."""
        undo = Undo(change, {}, self.bound, self.known, self.stored)
        self.known = {at: other for at, other in self.known.items() if at != change}
        self.dropped[change] = True
        self.bound += self.penalty
        self.broken.discard(change)
        return undo

    def go_back(self, undo: Undo) -> None:
        """Undoes the last decision."""
        self.kept[undo.change] = self.dropped[undo.change] = False
        self.bound, self.known, self.stored = undo.bound, undo.known, undo.stored
        self.put(undo.times)
        self.look_at(undo.change)

    def put(self, times: dict[int, int]) -> None:
        """Puts times of events, and looks again which changes are broken."""
        for event, time in times.items():
            self.times[event] = time
        for event in times:
            for change in self.core.around[event]:
                self.look_at(change)

    def look_at(self, change: int) -> None:
        """Notes whether a change is open and broken."""
        is_open = not self.kept[change] and not self.dropped[change]
        if is_open and self.core.is_broken(self.core.changes[change], self.times):
            self.broken.add(change)
        else:
            self.broken.discard(change)
