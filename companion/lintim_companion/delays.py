"""Days of delays by distributions, from a number.

The exponential distribution is the usual one of the field; the lognormal and the Weibull
distribution are among those that J. Yuan, Stochastic modelling of train delays and delay
propagation in stations (2006), fits to measured delays. What is late is drawn for each periodic event and the how manyth time it comes, and not for
its number in the day: so two plans of the same lines have the same delays, and differences between
them are those of the plans (common random numbers, A. M. Law, Simulation modeling and analysis)."""

import math
import random
from collections import Counter
from collections.abc import Callable, Iterable, Iterator
from typing import NamedTuple

from . import formats
from .dataset import Dataset
from .faults import Refused
from .formats import ActivityDelay, EventDelay

Law = Callable[[random.Random, float], float]
SIGMA = 1.0  # of the logarithm of a lognormal delay
SHAPE = 0.8  # of a Weibull delay: long ones come more often than by the exponential law
LAWS: dict[str, Law] = {
    "exponential": lambda chance, mean: chance.expovariate(1 / mean),
    "lognormal": lambda chance, mean: chance.lognormvariate(math.log(mean) - SIGMA**2 / 2, SIGMA),
    "weibull": lambda chance, mean: chance.weibullvariate(mean / math.gamma(1 + 1 / SHAPE), SHAPE),
    "uniform": lambda chance, mean: chance.uniform(0, 2 * mean),
}
PLACES = ("trips", "departures", "drives")  # the starts of trips, all departures, or all drives
MOST = 1_000_000  # minutes of one delay


class Lateness(NamedTuple):
    """How late a day is: a law of `LAWS` with a mean in minutes, the part of the trips, departures
    or drives that are late, which of these it is, and a number."""

    law: str
    mean: float
    share: float
    of: str
    seed: int


def see_lateness(it: Lateness) -> None:
    """Sees that a day of delays can be made so."""
    if it.law not in LAWS:
        raise Refused(f"law {it.law!r}, wanted one of {', '.join(LAWS)}")
    if it.of not in PLACES:
        raise Refused(f"of {it.of!r}, wanted one of {', '.join(PLACES)}")
    if not 0 < it.mean <= MOST or not 0 <= it.share <= 1:
        raise Refused(f"mean {it.mean:g} and share {it.share:g}, wanted minutes and 0 to 1")


def _drawn(it: Lateness, items: Iterable[tuple[int, int]]) -> Iterator[tuple[int, int]]:
    """The delays of some of these, each by its id and the periodic one that it comes from; ids rise
    with time for each periodic one."""
    times = Counter[int]()
    for number, periodic in items:
        times[periodic] += 1
        chance = random.Random(f"{it.seed} {it.of} {periodic} {times[periodic]}")
        if chance.random() < it.share:
            yield number, min(MOST, max(1, round(LAWS[it.law](chance, it.mean))))


def day_of_delays(data: Dataset, it: Lateness) -> tuple[list[EventDelay], list[ActivityDelay]]:
    """The delays of a planned day, of events and of activities. Stage rollout has to be made."""
    see_lateness(it)
    if it.of == "drives":
        drives = [one for one in data[formats.DAY_ACTIVITIES] if one.type == "drive"]
        late = _drawn(it, ((one.activity_id, one.periodic_id) for one in drives))
        return [], [ActivityDelay(*row) for row in late]
    if it.of == "trips":
        pairs = [(one.start_id, one.periodic_start_id) for one in data[formats.TRIPS]]
    else:
        events = [one for one in data[formats.DAY_EVENTS] if one.type == "departure"]
        pairs = [(one.event_id, one.periodic_id) for one in events]
    return [EventDelay(*row) for row in _drawn(it, sorted(pairs))], []
