"""`lintim-convert`: datasets of LinTim into ones of `lintim` and back, and a judge of them."""

from argparse import Namespace
from pathlib import Path

from .. import files, formats, program
from ..exchange.giving import given
from ..exchange.judging import Judge
from ..exchange.source import Notes, Source
from ..exchange.taking import IDS, take
from ..exchange.trusted import see_pins
from ..faults import Refused, WrongWords
from ..manners import Deadline, Talk

USES = {"in": "LINTIM NEW", "out": "FOLDER NEW", "judge": "LINTIM"}


def run(words: Namespace, talk: Talk) -> int:
    """Does what the first word says."""
    _see_words(words)
    if words.what == "out":
        return _out(words.paths[0], words.paths[1], talk)
    program.find()
    with files.scratch("lintim-convert-") as scratch:
        if words.what == "judge":
            return _judge(words, scratch, talk)
        return _in(words, scratch, talk)


def _see_words(words: Namespace) -> None:
    """Sees that the words are those of one of the three uses."""
    if words.what not in USES:
        raise WrongWords(f"{words.what!r} is not in, out or judge")
    paths = USES[words.what]
    if len(words.paths) != len(paths.split()):
        raise WrongWords(f"{words.what} wants {paths}")
    if words.driven and words.what == "out":
        raise WrongWords("out has no --driven")


def _see_target(old: Path, new: Path, what: str) -> None:
    """Sees that the target is new, and not within the source."""
    files.see_new(new, what, formats.STOPS.name)
    if old.resolve() in (new.resolve(), *new.resolve().parents):
        raise Refused(f"{new} is in {old}, which is not changed: name a folder beside it")


def _in(words: Namespace, scratch: Path, talk: Talk) -> int:
    """Writes the dataset here of a folder of LinTim."""
    old, new = words.paths
    Source(old)
    _see_target(old, new, "in")
    taken = take(old, words.driven, scratch)
    see_pins(taken)
    _write(new, taken.texts(), talk)
    _tell(taken.notes, talk)
    pins = [key.removeprefix("pin_") for key, value in taken.pins.items() if value == "yes"]
    talk.say(f"in: pinned: {', '.join(pins) or 'nothing'}")
    talk.say(f"in: written to {new}; lintim make plans it, and {IDS} has the ids of LinTim")
    return 0


def _out(folder: Path, new: Path, talk: Talk) -> int:
    """Writes the folder of LinTim's form of a dataset."""
    files.see_folder(folder)
    _see_target(folder, new, "out")
    notes = Notes()
    texts = given(folder, notes)
    _write(new, texts, talk)
    _tell(notes, talk)
    talk.say(f"out: {len(texts)} files written to {new}; not tried on a release of LinTim")
    return 0


def _judge(words: Namespace, scratch: Path, talk: Talk) -> int:
    """Tells the verdict over the plans of a folder of LinTim."""
    deadline = Deadline(words.seconds)
    taken = take(words.paths[0], words.driven, scratch)
    _tell(taken.notes, talk)
    judge = Judge(
        taken, scratch / "judge", deadline, talk.progress, lambda it: talk.say(f"judge: {it}")
    )
    verdict = judge.judged()
    talk.say(f"judge: {verdict.last}")
    return 1 if verdict.broken else 0


def _write(new: Path, texts: dict[str, bytes], talk: Talk) -> None:
    with files.undisturbed():
        files.write_all(new, texts)
        talk.wrote.append(str(new))


def _tell(notes: Notes, talk: Talk) -> None:
    """Tells what was taken, and then what is lost or weaker, with the number of such things."""
    for line in notes.lines:
        talk.say(f"taken: {line}")
    for line in notes.lost:
        talk.say(f"lost or weaker: {line}")
    talk.say(f"lost or weaker: {len(notes.lost)} in all")
