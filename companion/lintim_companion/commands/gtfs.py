"""`lintim-gtfs`: a dataset as a GTFS feed, a feed as a dataset, and the rules of feeds."""

from argparse import Namespace
from pathlib import Path

from .. import dataset, files, formats, program
from ..bounds import within
from ..faults import Refused, WrongWords
from ..gtfs import check, export, places
from ..gtfs.feed import Feed
from ..gtfs.findings import told
from ..gtfs.words import date_word, place_word, scale_word
from ..manners import Talk

USES = {
    "export": ("FOLDER FEED.zip", ("place", "scale", "disposed", "date", "route_type")),
    "import": (
        "FEED.zip FOLDER",
        (
            "date",
            "from",
            "to",
            "period",
            "route_type",
            "area",
            "share",
            "routes",
            "fit",
            "seconds",
            "memory",
        ),
    ),
    "check": ("FEED.zip", ("seconds", "memory")),
}
OPTIONS = tuple(dict.fromkeys(it for _, options in USES.values() for it in options))
SECONDS, MEGABYTES = 60, 1000
DATE = "20260105"


def run(words: Namespace, talk: Talk) -> int:
    """Does what the first word says."""
    _see_words(words)
    if words.what == "export":
        return _export(words, talk)
    from ..gtfs.importing import import_feed

    with within(words.seconds or SECONDS, words.memory or MEGABYTES):
        if words.what == "check":
            return _check(words.paths[0], talk)
        return import_feed(words, talk)


def _see_words(words: Namespace) -> None:
    """Sees that the words are those of one of the three uses."""
    if words.what not in USES:
        raise WrongWords(f"{words.what!r} is not export, import or check")
    paths, options = USES[words.what]
    if len(words.paths) != len(paths.split()):
        raise WrongWords(f"{words.what} wants {paths}")
    for name in OPTIONS:
        if getattr(words, name) not in (None, False) and name not in options:
            raise WrongWords(f"{words.what} has no --{name.replace('_', '-')}")


def _export(words: Namespace, talk: Talk) -> int:
    """Writes the feed of a dataset."""
    folder, path = words.paths
    on = date_word("--date", words.date or DATE)
    place = None if words.place is None else place_word(words.place)
    scale = scale_word(words.scale or "1000")
    if words.scale is not None and place is None:
        raise WrongWords("--scale wants --place")
    out = files.place_of(path)
    data = dataset.read(folder)
    needed = formats.CONCEPT, formats.PERIODIC_EVENTS, formats.TIMETABLE, formats.TRIPS
    program.see_kept(folder, *needed, *([formats.DISPOSITION] if words.disposed else []))
    has_vehicles = program.states(folder).get("vehicles") == "kept"
    stops, edges = list(data[formats.STOPS]), list(data[formats.EDGES])
    at = places.put(stops, place, scale) if place else places.degrees(stops, edges)
    wanted = export.Wanted(words.disposed, on, words.route_type, has_vehicles)
    made = export.feed_of(data, at, wanted)
    packed = export.packed(made.files)
    faults = [it for it in check.checked(Feed(path, packed)) if it.is_error]
    if faults:
        raise Refused(f"the feed would break a rule of the reference: {faults[0].line()}")
    with files.undisturbed():
        files.write_bytes(out.parent, out.name, packed)
        talk.wrote.append(str(path))
    _say_made(made, wanted, path, talk)
    return 0


def _say_made(made: export.Made, wanted: export.Wanted, path: Path, talk: Talk) -> None:
    """Tells what the feed has."""
    counts = f"{made.stops} stops, {made.routes} routes, {made.trips} trips, {made.calls} calls"
    times = "disposed" if wanted.is_disposed else "planned"
    talk.say(f"gtfs: {counts} of {wanted.on}, {times} times; no rule of the reference is broken")
    if made.changes:
        talk.say(f"gtfs: {made.changes} changes are listed from trip to trip, and no others hold")
    if not wanted.has_vehicles:
        talk.say("gtfs: without blocks, since stage vehicles is not up to date")
    talk.say(f"gtfs: written to {path}")


def _check(path: Path, talk: Talk) -> int:
    """Tells which rules of the reference a feed breaks."""
    feed = Feed(path)
    findings = check.checked(feed)
    for line in told(findings):
        talk.say(line)
    errors = sum(it.is_error for it in findings)
    counts = f"{errors} errors, {len(findings) - errors} warnings"
    talk.say(f"gtfs: {counts} in {len(feed.names)} files of {path}")
    return 1 if errors else 0
