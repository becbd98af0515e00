"""A second look at the time of customers: least minutes over the lines that are driven, by rounds.

It shares nothing with the program over the change-and-go network. A table has the least minutes of
one ride between each two stops; a further round joins a ride to what the rounds before have found,
with a penalty for the change."""

from typing import NamedTuple

import numpy
from numpy.typing import NDArray

from ..dataset import Dataset
from ..formats import DEMAND, EDGES, POOL, STOPS

Table = NDArray[numpy.float64]


class Served(NamedTuple):
    """What customers have of a concept: how many there are, those with no change, with one and with
    more, those without any way, and the mean minutes with the penalty and without it."""

    customers: float
    direct: float
    once: float
    often: float
    lost: float
    minutes: float
    ride_minutes: float

    def share(self, customers: float) -> str:
        """A part of all customers, in percent."""
        return f"{100 * customers / max(self.customers, 1e-9):.1f} %"


def served(data: Dataset, driven: set[int], penalty: int) -> Served:
    """What customers have where these lines are driven and each takes the way of least minutes,
    with so many for a change; of equal ones that with fewer changes."""
    place = {stop.stop_id: at for at, stop in enumerate(data[STOPS])}
    best = _one_ride(data, place, driven)
    ride, changes = best.copy(), numpy.where(numpy.isfinite(best), 0.0, numpy.inf)
    for count in range(1, len(place)):
        longer = numpy.array([(row[:, None] + ride).min(axis=0) for row in best]) + penalty
        if not (longer < best - 1e-9).any():
            break
        changes = numpy.where(longer < best - 1e-9, count, changes)
        best = numpy.minimum(best, longer)
    counts, sums, rides = [0.0] * 4, 0.0, 0.0
    for row in data[DEMAND]:
        customers = row.customers / 10**6
        a, b = place[row.from_stop], place[row.to_stop]
        if a == b or not customers:
            continue
        if not numpy.isfinite(best[a, b]):
            counts[3] += customers
            continue
        counts[min(2, int(changes[a, b]))] += customers
        sums += customers * float(best[a, b])
        rides += customers * float(best[a, b] - penalty * changes[a, b])
    way = max(sum(counts[:3]), 1e-9)
    direct, once, often, lost = counts
    return Served(sum(counts), direct, once, often, lost, sums / way, rides / way)


def _one_ride(data: Dataset, place: dict[int, int], driven: set[int]) -> Table:
    """The least minutes of a ride in one line between each two stops."""
    edges = {edge.edge_id: edge for edge in data[EDGES]}
    ways: dict[int, list[int]] = {}
    for row in sorted(data[POOL], key=lambda row: (row.line_id, row.order)):
        if row.line_id in driven:
            ways.setdefault(row.line_id, []).append(row.edge_id)
    count = max(place.values(), default=-1) + 1
    ride = numpy.full((count, count), numpy.inf)
    for line in ways.values():
        both = [{edges[at].left_stop, edges[at].right_stop} for at in line]
        now = next(start for start in sorted(both[0]) if _goes_on(both, start))
        seen = [(place[now], 0)]
        for at, two in zip(line, both):
            now = sum(two) - now
            seen.append((place[now], seen[-1][1] + edges[at].lower_bound))
            for other, minutes in seen[:-1]:
                taken = min(ride[other, place[now]], seen[-1][1] - minutes)
                ride[other, place[now]] = ride[place[now], other] = taken
    return ride


def _goes_on(both: list[set[int]], start: int) -> bool:
    """Whether edges with these ends follow one another from a stop."""
    for two in both:
        if start not in two:
            return False
        start = sum(two) - start
    return True
