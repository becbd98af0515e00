"""Manual pages, in the language mdoc, from the tables that `--help` is written from."""

import textwrap
from collections.abc import Iterable
from datetime import date

from ..registry import COMMANDS, Command, Word
from ..version import RELEASED
from .program_words import PROGRAM_STATUSES, PROGRAM_WORDS, STARTER_WORDS

SECTION = 1


def _plain(text: str) -> str:
    """A text as one argument or line of mdoc: backslashes, quotes and points at its head hidden."""
    text = " ".join(text.split()).replace("\\", "\\e").replace('"', "\\(dq").replace("--", "\\-\\-")
    text = " ".join("\\&." if word == "." else word for word in text.split(" "))
    return f"\\&{text}" if text.startswith((".", "'")) else text


def _sentences(text: str) -> list[str]:
    """A text with each sentence on lines of its own, as mdoc has it."""
    parts = text.replace("\n", " ").replace(". ", ".\n").split("\n")
    return [
        f"\\&{line}" if line.startswith((".", "'")) else line
        for part in parts
        for line in textwrap.wrap(_plain(part), 76, break_on_hyphens=False)
    ]


def _items(rows: Iterable[tuple[str, str]]) -> list[str]:
    """A list of words with what they mean."""
    lines = [".Bl -tag -width Ds"]
    for head, says in rows:
        lines += [f".It {head}", *_sentences(says)]
    return [*lines, ".El"]


def _head(name: str, says: str) -> list[str]:
    released = date.fromisoformat(RELEASED)
    day = f"{released:%B} {released.day}, {released.year}"
    title = [f".Dd {day}", f".Dt {name.upper()} {SECTION}", ".Os", ".Sh NAME"]
    return [*title, f".Nm {name}", f".Nd {_plain(says[0].lower() + says[1:]).rstrip('.')}"]


def program_page() -> str:
    """The page `lintim.1`."""
    lines = _head("lintim", "A proved planning chain for public transport")
    lines.append(".Sh SYNOPSIS")
    for word in PROGRAM_WORDS:
        lines += [".Nm", f".Cm {_plain(word.usage)}"]
    for name, _ in STARTER_WORDS:
        lines += [".Nm", f".Fl \\-{name[2:]}"]
    lines += [".Sh DESCRIPTION", ".Nm"]
    lines += _sentences(
        "runs in the folder of a dataset, which is a folder of text files with semicolons. "
        "It plans which lines run and how often, when they run, which vehicles drive them, and "
        "what becomes of a day with delays."
    )
    lines += [".Pp", "Its words are:"]
    lines += _items(
        (f".Cm {_plain(it.usage)}"[1:], f"{it.says[0].upper()}{it.says[1:]}. {it.about}")
        for it in PROGRAM_WORDS
    )
    lines += [".Pp", "An installed program takes these, too:"]
    lines += _items((f"Fl \\-{name[2:]}", f"{says}.") for name, says in STARTER_WORDS)
    lines += [".Sh EXIT STATUS", *_items((f"{number}", says) for number, says in PROGRAM_STATUSES)]
    lines += [".Sh EXAMPLES", "The network of a demo:", ".Pp", ".Dl lintim demo 3"]
    return "\n".join([*lines, *_see_also(it.name for it in COMMANDS)]) + "\n"


def command_page(it: Command) -> str:
    """The page of a command of the companion."""
    lines = [*_head(it.name, it.says), ".Sh SYNOPSIS", ".Nm"]
    lines += [_synopsis(word) for word in it.words]
    lines += [".Sh DESCRIPTION", *_sentences(f"{it.says} {it.about}"), ".Pp", "Its words are:"]
    lines += _items((_named(word), _meaning(word)) for word in it.words)
    lines += [".Sh FILES", *_items((("read", it.reads), ("written", it.writes)))]
    lines += [".Sh EXIT STATUS", *_items((f"{number}", says) for number, says in it.statuses)]
    lines += [".Sh EXAMPLES", f".Dl {_plain(it.example)}"]
    others = [other.name for other in COMMANDS if other.name != it.name]
    return "\n".join([*lines, *_see_also(["lintim", *others])]) + "\n"


def _named(word: Word) -> str:
    """A word with the name of its value, in the macros of mdoc."""
    if not word.is_option:
        return f"Ar {word.name}"
    flag = f"Fl \\-{word.name[2:]}"
    if word.kind == "switch":
        return flag
    return f"{flag} Ar {'N' if word.kind == 'whole' else word.name[2:].upper()}"


def _synopsis(word: Word) -> str:
    named = f".Op {_named(word)}" if word.is_option or word.many else f".{_named(word)}"
    return f"{named} ..." if word.many else named


def _meaning(word: Word) -> str:
    says = f"{word.says[0].upper()}{word.says[1:]}"
    return says if word.default is None else f"{says} ({word.default})"


def _see_also(names: Iterable[str]) -> list[str]:
    """What other pages there are."""
    found = sorted(names)
    rows = [f".Xr {name} {SECTION} ," for name in found[:-1]] + [f".Xr {found[-1]} {SECTION}"]
    return [".Sh SEE ALSO", *rows]


def pages() -> dict[str, str]:
    """All manual pages by their file names."""
    found = {f"lintim.{SECTION}": program_page()}
    return found | {f"{it.name}.{SECTION}": command_page(it) for it in COMMANDS}
