"""By which rule what a page shows and what comes are alike.

Seconds (`0.4 s`, `in 12 s`), sizes of files (`8.9 MB`), versions and commits differ from run to run
and from machine to machine. Any such number is like any other one. All else has to be equal, letter
by letter, but for blanks at the ends of lines. A line `..` of a page stands for any lines.
"""

import re
from collections.abc import Iterable, Sequence

TOLERATED = (
    (re.compile(r"\b\d+(?:\.\d+)? s\b"), "N s"),
    (re.compile(r"\b\d+(?:\.\d+)? MB\b"), "N MB"),
    (re.compile(r"\b\d+\.\d+\.\d+\b"), "VERSION"),
    (re.compile(r"\b[0-9a-f]{40}\b|\bcommit [0-9a-f]{7,12}\b"), "COMMIT"),
)
REPORT = re.compile(
    r"(?:load|cost|concept|ean|timetable|rollout|vehicles|disposition|statistic)"
    r": (?:\d+ \w|cost \d|delay \d|off$|stale$|unknown$|edited$|kept$)"
    r"|uncertified: [a-z]+: [a-z]+$|spent: \w+ after \d|no solution: \w+$"
    r"|refused: .*(?:row \d|missing$|: \d+$|value of )"
)


def plain(line: str) -> str:
    """A line with a word in the place of each number that may differ."""
    for pattern, word in TOLERATED:
        line = pattern.sub(word, line)
    return line.rstrip()


def stands_at(shown: Sequence[str], text: Sequence[str], place: int) -> bool:
    """Whether the shown lines stand in a text from a place on, without a gap but where `..` is."""
    for number, line in enumerate(shown):
        if line == "..":
            rest = shown[number + 1 :]
            return not rest or any(stands_at(rest, text, at) for at in range(place, len(text)))
        if place >= len(text) or text[place] != line:
            return False
        place += 1
    return True


def stands_in(shown: Iterable[str], text: Iterable[str]) -> bool:
    """Whether lines that a page shows stand in a text side by side."""
    wanted, there = [plain(it) for it in shown], [plain(it) for it in text]
    return any(stands_at(wanted, there, place) for place in range(len(there)))


def are_rows_of(shown: Iterable[str], text: Iterable[str]) -> bool:
    """Whether lines that a page shows are rows of a file in its order, perhaps with others
    between them."""
    rest = iter([plain(it) for it in text])
    return all(plain(line) in rest for line in shown)


def is_report(span: str) -> bool:
    """Whether a word of the prose is a line of a report that some run has to have printed."""
    return REPORT.match(span) is not None and ".." not in span
