"""`lintim-gtfs import`: a new dataset from one date of a feed."""

import csv
import io
from argparse import Namespace
from collections import Counter
from collections.abc import Iterator
from pathlib import Path
from typing import Any

from .. import files, formats
from .. import settings as config
from ..cells import File
from ..clocks import clock, minute_word
from ..faults import Refused, WrongWords
from ..manners import Talk
from ..tables import written
from . import plan_rows
from .advice import SHARE, Choice, better_period, fits, planned, told
from .cells import whole_of
from .feed import Feed
from .lengths import Lengths, lengths_of
from .lines import Part
from .plan import Plan
from .rides import LATEST_START, Rides
from .sizes import sizes, too_large
from .stations import Stations
from .words import box_word, date_word

IDS = "import/ids.csv"
PERIOD = 60
LEAST_CHANGE = 3
SHOWN_LINES = 5
NEEDED = {
    "stops.txt": ("stop_id",),
    "routes.txt": ("route_id", "route_type"),
    "trips.txt": ("trip_id", "route_id", "service_id"),
    "stop_times.txt": ("trip_id", "stop_id", "stop_sequence", "arrival_time", "departure_time"),
}


def import_feed(words: Namespace, talk: Talk) -> int:
    """Reads a feed, and writes the dataset of a date."""
    path, folder = words.paths
    if words.date is None:
        raise WrongWords("import wants --date, as 20260105")
    on = date_word("--date", words.date)
    choice = _choice(words)
    files.see_new(folder, "import", formats.STOPS.name)
    feed = Feed(path)
    for name, fields in NEEDED.items():
        feed.see(name, *fields)
    rides = Rides(feed, Stations(feed), on, words.route_type)
    left = rides.left
    before = Counter(left)
    made = planned(rides, choice, left)
    if made is None:
        raise Refused(f"no trip is left: {_counted(left) or 'there are none'}{_first(rides)}")
    if large := too_large(made[0]):
        narrower = _that_fits(rides, choice, large, words.fit, talk)
        left.clear()
        left.update(before)
        made = planned(rides, narrower, left)
        assert made is not None
    plan, parts = made
    lengths = lengths_of(parts, rides.stations, feed)
    texts = _texts(plan, rides, lengths, _least_change(feed))
    texts[IDS] = _ids(plan, rides)
    with files.undisturbed():
        files.write_all(folder, texts)
        talk.wrote += texts
    _tell(plan, rides, feed, lengths.says, talk)
    if word := better_period(rides, parts, plan):
        talk.say(f"gtfs: {word}")
    talk.say(f"gtfs: written to {folder}; lintim make plans it, and {IDS} has the ids of the feed")
    return 0


def _that_fits(
    rides: Rides, choice: Choice, large: list[str], is_asked: bool, talk: Talk
) -> Choice:
    """The first part that fits, where it is asked for; what would fit is told."""
    says = f"more than lintim takes: {', '.join(large)}"
    talk.progress.tell("looking for what would fit")
    if not (found := fits(rides, choice)):
        raise Refused(f"{says}; a smaller --area, one --route-type or less time may fit")
    for line in told(found, choice):
        talk.say(f"gtfs: {line}")
    if not is_asked:
        raise Refused(f"{says}; --fit takes the first of what would fit")
    talk.say(f"gtfs: {says}; so this is taken: {found[0].choice.words(choice)}")
    return found[0].choice


def _texts(plan: Plan, rides: Rides, lengths: Lengths, change: int) -> dict[str, bytes]:
    """The files of the dataset."""
    rows: list[tuple[File[Any], list[Any]]] = [
        (formats.STOPS, plan_rows.stop_rows(plan)),
        (formats.EDGES, plan_rows.edge_rows(plan, lengths)),
        (formats.POOL, plan_rows.pool_rows(plan)),
        (formats.GIVEN_LOADS, plan_rows.load_rows(plan)),
        (formats.PINNED_CONCEPT, plan_rows.concept_rows(plan)),
        (formats.LINE_NAMES, plan_rows.name_rows(plan, rides.routes)),
    ]
    if plan.is_timed:
        rows.append((formats.PINNED_TIMETABLE, plan_rows.timetable_rows(plan)))
    texts = {file.name: written(file, of_file) for file, of_file in rows}
    texts[formats.CONFIG] = config.with_values(b"", plan_rows.settings_of(plan, change))
    return texts


def _choice(words: Namespace) -> Choice:
    """The part of the feed that is wanted."""
    begin = getattr(words, "from")
    first = minute_word("--from", begin) if begin is not None else 0
    last = minute_word("--to", words.to) if words.to is not None else LATEST_START
    if last < first:
        raise WrongWords("--to is before --from")
    area = box_word(words.area) if words.area is not None else None
    share = SHARE if words.share is None else words.share / 100
    return Choice((first, last), words.period or PERIOD, area, None, share, words.routes)


def _least_change(feed: Feed) -> int:
    """The minutes of a change that most rows of `transfers.txt` tell, rounded up."""
    counts = Counter[int]()
    for _, (kind, seconds) in feed.records("transfers.txt", "transfer_type", "min_transfer_time"):
        least = whole_of(seconds)
        if kind == "2" and least is not None and least <= 3600:
            counts[-(-least // 60)] += 1
    return max(counts, key=lambda it: (counts[it], -it)) if counts else LEAST_CHANGE


def _counted(counts: Counter[str]) -> str:
    """Counts in words, those of most first."""
    return ", ".join(f"{count} {what}" for what, count in counts.most_common() if count)


def _first(rides: Rides) -> str:
    return f"; the first fault: {rides.first_fault}" if rides.first_fault else ""


def _tell(plan: Plan, rides: Rides, feed: Feed, lengths: str, talk: Talk) -> None:
    """Tells what was taken, what was left out, and what was changed."""
    of_feed = sum(len(it.stops) for it in plan.stops.values())
    counts = f"{len(plan.stops)} stops of {of_feed} in the feed, {len(plan.edges)} edges"
    trips = sum(len(it.forward) + len(it.backward) for it in plan.lines.values())
    talk.say(f"gtfs: {counts}, {len(plan.lines)} lines with {trips} trips; {lengths}")
    if left := _counted(rides.left):
        talk.say(f"gtfs: left out: {left}{_first(rides)}")
    unused = len(rides.stations.all) - len(plan.stops)
    if unused:
        talk.say(f"gtfs: left out: {unused} stations at which no such trip calls")
    if alone := [it.route for it in plan.lines.values() if not (it.forward and it.backward)]:
        shown = ", ".join(plan_rows.plain(rides.routes[it].name) for it in alone[:SHOWN_LINES])
        more = f" and {len(alone) - SHOWN_LINES} more" if len(alone) > SHOWN_LINES else ""
        talk.say(f"gtfs: the way back is not in the feed for {len(alone)} lines: {shown}{more}")
    if rides.changed:
        talk.say(f"gtfs: changed: {_counted(rides.changed)}")
    for file, (often, first) in sorted(feed.uneven.items()):
        rows = f"{often} rows with more cells than the header, the first is row {first}"
        talk.say(f"gtfs: {file}: {rows}; commas inside of numbers or names want quotes")
    if feed.not_utf8:
        talk.say(f"gtfs: read as Latin-1 where it is no UTF-8: {', '.join(sorted(feed.not_utf8))}")
    others = [name for name, it in plan.timed.items() if it.why_not]
    good = len(plan.timed) - len(others)
    stretched = sum(plan.lines[it].is_stretched for it in {*plan.timed} - {*others})
    of = f"{good - stretched} of {len(plan.timed)} lines are periodic and as in the feed"
    if stretched:
        of += f", {stretched} more but for drives of less than a minute, which take one"
    kept = f"pinned as {formats.PINNED_TIMETABLE.name}" if good else "lintim makes a timetable"
    talk.say(f"gtfs: timetable: {of}; {kept}")
    if others and (day := sizes(plan)["trips"]) != trips:
        talk.say(f"gtfs: the day of lintim has up to {day} trips, since all its lines are periodic")
    for name in others[:SHOWN_LINES]:
        route = rides.routes[plan.lines[name].route].name
        talk.say(f"gtfs: line {name} ({plan_rows.plain(route)}): {plan.timed[name].why_not}")
    if len(others) > SHOWN_LINES:
        whys = Counter(plan.timed[name].why_not for name in others[SHOWN_LINES:])
        talk.say(f"gtfs: and {len(others) - SHOWN_LINES} lines more: {_counted(whys)}")


def _ids(plan: Plan, rides: Rides) -> bytes:
    """The table that leads from ids of the dataset back to those of the feed."""
    out = io.StringIO()
    table = csv.writer(out, lineterminator="\n")
    table.writerow(("kind", "id", "gtfs_id", "name"))
    table.writerows(_id_rows(plan, rides))
    return out.getvalue().encode(errors="replace")


def _id_rows(plan: Plan, rides: Rides) -> Iterator[tuple[str, int, str, str]]:
    for stop, station in sorted(plan.stops.items()):
        for of_feed in station.stops:
            yield "stop", stop, of_feed, station.name
    for name, line in plan.lines.items():
        yield "line", name, line.route, rides.routes[line.route].name
    for name, line in plan.lines.items():
        for sign, runs in ((">", line.forward), ("<", line.backward)):
            for run in runs:
                yield "trip", name, run.trip, f"{sign} {clock(run.start)}"
