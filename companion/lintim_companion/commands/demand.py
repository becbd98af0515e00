"""`lintim-demand`: a guess of the demand, and how far it is from what lines offer."""

from argparse import Namespace
from pathlib import Path
from typing import Any

from .. import dataset, files
from ..dataset import Dataset
from ..demand import given
from ..faults import Refused, WrongWords
from ..formats import DEMAND, MAX_HAND_BYTES, STOPS
from ..manners import Talk
from ..tables import written

GUESS = "# a guess of lintim-demand"
OPTIONS = {"gravity": ("people",), "counts": ("counts",), "matrix": ("matrix", "zones")}
WORST = 10
FULL = 0.25  # of the places, where nobody says how many customers there are


def run(words: Namespace, talk: Talk) -> int:
    """Writes the guess, and tells the loads that follow."""
    _see_words(words)
    data = dataset.read(words.folder)
    files.see_writable(words.folder, DEMAND.name)
    _see_own(words)
    from ..demand import guesses, network

    supply = network.supply_of(data)
    minutes, before = supply.minutes()
    talk.progress.tell("guessing the demand")
    customers, says = _guess(words, supply, minutes)
    total = float(customers.sum()) if words.customers is None else words.customers
    total *= (words.slice or 100) / 100
    if words.customers is None and words.what == "gravity":
        each = data.settings.gen_passengers_per_vehicle
        total = network.filling(supply, guesses.scaled(customers, 1000), before, FULL * each)
        says += f", as many as fill {100 * FULL:.0f} % of the places of lines"
    rows, part = guesses.rows_of(guesses.scaled(customers, total), supply.stops)
    count = sum(it.customers for it in rows) / 10**6
    about = f"{words.what} {says}, {count:.0f} customers in a period"
    _write(words.folder, rows, about, talk)
    talk.say(f"demand: a guess: {about}, {len(rows)} rows")
    if part < 0.9995:
        talk.say(f"demand: the rows left out had {100 * (1 - part):.1f} %; the others are raised")
    _tell_loads(data, supply, rows, before, talk)
    talk.say(f"demand: written to {DEMAND.name}, whose first line says that it is a guess")
    if data.settings.load_source == "file":
        talk.say("demand: loads still come from a file; without load_source they come from demand")
    return 0


def _see_words(words: Namespace) -> None:
    """Sees that the words are those of one of the three guesses."""
    if words.what not in OPTIONS:
        raise WrongWords(f"{words.what!r} is not gravity, counts or matrix")
    for what, names in OPTIONS.items():
        for name in names:
            if what != words.what and getattr(words, name) is not None:
                raise WrongWords(f"{words.what} has no --{name}")
            if what == words.what != "gravity" and getattr(words, name) is None:
                raise WrongWords(f"{words.what} wants --{name}")


def _see_own(words: Namespace) -> None:
    """Sees that no demand of somebody else is lost."""
    data = files.read_bytes(words.folder, DEMAND.name, MAX_HAND_BYTES)
    if data and not data.startswith(GUESS.encode()) and not words.replace:
        raise Refused(f"{DEMAND.name} is there and is no guess; --replace writes over it")


def _guess(words: Namespace, supply: Any, minutes: Any) -> tuple[Any, str]:
    """Customers from stop to stop, and from what."""
    import numpy

    from ..demand import guesses

    count, places = len(supply.stops), supply.places
    if words.what == "gravity" and words.people is None:
        return guesses.gravity(supply.departures(), minutes), f"by departures of {supply.source}"
    if words.what == "gravity":
        weights = numpy.zeros(count)
        for place, people in given.by_stop(given.read(words.people, given.People), places).items():
            weights[place] = people.people
        return guesses.gravity(weights, minutes), f"by people of {words.people.name}"
    if words.what == "matrix":
        return _of_zones(words, count, places, minutes)
    both = numpy.zeros((2, count))
    for place, it in given.by_stop(given.read(words.counts, given.Count), places).items():
        both[:, place] = it.boardings / 10**6, it.alightings / 10**6
    found = guesses.fitted(both[0], both[1], minutes)
    met = f"margins met to {100 * found.apart:.2g} % in {found.rounds} rounds"
    worst = f", farthest at stop {supply.stops[found.place]}" if found.apart > 1e-4 else ""
    return found.customers, f"of {words.counts.name}, {met}{worst}"


def _of_zones(
    words: Namespace, count: int, places: dict[int, int], minutes: Any
) -> tuple[Any, str]:
    """A matrix of zones, laid on their stops by shares."""
    import numpy

    zones = given.read(words.zones, given.Zone)
    shares: dict[str, Any] = {}
    for number, row in zip(zones.numbers, zones):
        of = shares.setdefault(row.zone, numpy.zeros(count))
        of[given.place_of(zones, number, row.stop, places)] += row.share
    found, lost = numpy.zeros((count, count)), 0.0
    trips = given.read(words.matrix, given.ZoneTrip)
    for number, trip in zip(trips.numbers, trips):
        for zone in trip[:2]:
            if zone not in shares or not shares[zone].sum():
                raise Refused(f"{trips.file.name} row {number}: zone {zone!r} has no stop")
        a, b = (shares[zone] / shares[zone].sum() for zone in trip[:2])
        found += trip.customers / 10**6 * a[:, None] * b[None, :]
    good = numpy.isfinite(minutes) & (minutes > 0)
    lost = float(found[~good].sum())
    says = f"of {words.matrix.name} on {len(shares)} zones"
    if lost > 0.0005:
        says += f" without {lost:.0f} customers within a stop or without a way"
    return numpy.where(good, found, 0.0), says


def _write(folder: Path, rows: list[Any], about: str, talk: Talk) -> None:
    """Writes the demand, after a line that says what it is."""
    line = " ".join(about.replace("\n", " ").split())
    data = f"{GUESS}: {line}\n".encode(errors="replace") + written(DEMAND, rows)
    with files.undisturbed():
        files.write_bytes(folder, DEMAND.name, data)
        talk.wrote.append(DEMAND.name)


def _tell_loads(data: Dataset, supply: Any, rows: list[Any], before: Any, talk: Talk) -> None:
    """Tells how far the loads of edges are from what lines offer, the worst ten one by one."""
    import numpy

    from ..demand import network

    matrix = numpy.zeros((len(supply.stops), len(supply.stops)))
    for row in rows:
        matrix[supply.places[row.from_stop], supply.places[row.to_stop]] = row.customers / 10**6
    loads = network.loads(supply, matrix, before)
    names = {it.stop_id: it.long_name or it.short_name or str(it.stop_id) for it in data[STOPS]}
    each = data.settings.gen_passengers_per_vehicle
    told = []
    for edge in supply.edges:
        if offered := supply.often.get(edge.edge_id, 0) * each:
            ends = f"{names[edge.left_stop]} - {names[edge.right_stop]}"
            load = loads.get(edge.edge_id, 0.0)
            told.append((load / offered, edge.edge_id, ends, load, offered))
    if not told:
        return
    told.sort(key=lambda it: (-it[0], it[1]))
    full = sum(it[0] > 1 for it in told)
    mean = sum(it[3] for it in told) / sum(it[4] for it in told)
    talk.say(
        f"demand: customers on ways of least minutes take {100 * mean:.0f} % of the places of"
        f" {supply.source}; {full} of {len(told)} edges have more than all"
    )
    for part, edge_id, ends, load, offered in told[:WORST]:
        talk.say(
            f"demand: edge {edge_id} ({ends}): {load:.0f} of {offered} places, {100 * part:.0f} %"
        )
