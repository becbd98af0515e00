"""What is told: a cause in plain words, and one line with what would help.

A remedy is told in few forms, so that a script can follow it: the texts between backquotes are
what is to be written, and nothing else stands between backquotes in it.
"""

import re
from typing import NamedTuple

LONGEST_LINE = 160  # a longer line of a file is not shown as what to write


class Finding(NamedTuple):
    """A cause: its lines, what would help, and the file that is at fault, if one is."""

    why: tuple[str, ...]
    remedy: str = ""
    file: str = ""

    def lines(self) -> list[str]:
        """How it is printed."""
        told = [f"why: {visible(line)}" for line in self.why]
        return told + ([f"try: {visible(self.remedy)}"] if self.remedy else [])


def visible(line: str) -> str:
    """A line in which signs that move or hide others are told by their numbers."""
    return re.sub(r"[^\S ]|[\x00-\x1f\x7f-\x9f\u200b-\u200f\u2028-\u202e\ufeff]", _number, line)


def _number(sign: re.Match[str]) -> str:
    return f"<U+{ord(sign.group()):04X}>"


def finding(*why: str, remedy: str = "", file: str = "") -> Finding:
    """A finding of some lines."""
    return Finding(why, remedy, file)


def write_line(file: str, line: int, text: str) -> str:
    """A line of a file is to be another one."""
    return f"write line {line} of {file} as `{text}`"


def add_rows(file: str, *rows: str) -> str:
    """Rows are to stand at the end of a file."""
    return f"add to {file}: " + ", ".join(f"`{row}`" for row in rows)


def take_out(file: str, line: int) -> str:
    """A line of a file is to go."""
    return f"take line {line} out of {file}"


def rename(old: str, new: str) -> str:
    """A file is to have another name, or to stand in another folder."""
    return f"rename `{old}` to `{new}`"


def call(command: str) -> str:
    """A command is to be run, in the folder of the dataset."""
    return f"run `{command}`"


def either(*remedies: str) -> str:
    """One of several, the first of which is the best."""
    return "; or ".join(remedy for remedy in remedies if remedy)


def both(*remedies: str) -> str:
    """All of several."""
    return ", and ".join(remedy for remedy in remedies if remedy)


def shown(line: str) -> str:
    """A line of a file, cut where it is very long."""
    return line if len(line) <= LONGEST_LINE else line[:LONGEST_LINE] + " .."
