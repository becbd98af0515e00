"""The ways of a route, and which of them are the two directions of one line.

Two ways are matched along a longest common row of stations of the one and of the other one driven
back (longest common subsequence: D. S. Hirschberg, A linear space algorithm for computing maximal
common subsequences, 1975; here by the usual table). Of all pairs the one with the greatest product
of trips that have a partner and of the square of the common share comes first.
"""

from collections import Counter
from functools import lru_cache
from typing import NamedTuple

Way = tuple[int, ...]  # stations in order
Places = tuple[int, ...]  # which calls of a way are taken
LEAST_COMMON = 0.5  # of the stations of the longer way
MOST_CELLS = 1_000_000  # of the table for two ways; longer ones match where they mirror each other


class Matched(NamedTuple):
    """A way that becomes a line, the way back where the feed has one, and the calls of each that
    are taken."""

    there: Way
    back: Way | None
    places: dict[Way, Places]
    trips: int

    @property
    def row(self) -> Way:
        """The stations of the line."""
        return tuple(self.there[at] for at in self.places[self.there])


def matched_ways(counts: Counter[Way], share: float) -> list[Matched]:
    """The lines of a route by the trips of each way: all that have so much of its trips, and the
    most driven one; those with most trips first."""
    least = share * sum(counts.values())
    left = dict(counts)
    found = []
    for _, there, back in _pairs(counts, least):
        if there in left and back in left:
            of = common(there, back)
            places = {there: of[0], back: of[1]}
            found.append(Matched(there, back, places, left.pop(there) + left.pop(back)))
    for way, count in left.items():
        found.append(Matched(way, None, {way: tuple(range(len(way)))}, count))
    found.sort(key=lambda it: -it.trips)
    return [it for at, it in enumerate(found) if at == 0 or it.trips >= least]


def _pairs(counts: Counter[Way], least: float) -> list[tuple[float, Way, Way]]:
    """Each two ways that may be the directions of a line, the best ones first."""
    found = []
    order = {way: at for at, way in enumerate(counts)}
    for there in (way for way, count in counts.items() if count >= least / 2):
        for back in counts:
            is_first = order[there] < order[back] or counts[back] < least / 2
            if is_first and there != back and len(set(there) & set(back)) > 1:
                part = len(common(there, back)[0]) / max(len(there), len(back))
                if part >= LEAST_COMMON:
                    score = min(counts[there], counts[back]) * part**2
                    found.append((-score, there, back))
    return sorted(found, key=lambda it: (it[0], order[it[1]], order[it[2]]))


@lru_cache(maxsize=20_000)
def common(there: Way, back: Way) -> tuple[Places, Places]:
    """The places of a longest common row of stations, in a way and in a way of the other direction,
    each from its beginning; no station stands in it twice in a row."""
    turned = back[::-1]
    if there == turned:
        return tuple(range(len(there))), tuple(range(len(back)))
    if len(there) * len(back) > MOST_CELLS:
        return (), ()
    pairs = _longest(there, turned)
    row = [
        two for at, two in enumerate(pairs) if at == 0 or there[two[0]] != there[pairs[at - 1][0]]
    ]
    if len(row) < 2:
        return (), ()
    last = len(back) - 1
    return tuple(a for a, _ in row), tuple(last - b for _, b in reversed(row))


def _longest(a: Way, b: Way) -> list[tuple[int, int]]:
    """The places of a longest common subsequence."""
    table = [[0] * (len(b) + 1) for _ in range(len(a) + 1)]
    for i in range(len(a) - 1, -1, -1):
        row, below = table[i], table[i + 1]
        for j in range(len(b) - 1, -1, -1):
            row[j] = below[j + 1] + 1 if a[i] == b[j] else max(below[j], row[j + 1])
    found = []
    i = j = 0
    while i < len(a) and j < len(b):
        if a[i] == b[j]:
            found.append((i, j))
            i, j = i + 1, j + 1
        elif table[i + 1][j] >= table[i][j + 1]:
            i += 1
        else:
            j += 1
    return found
