"""What lines are called: the table `import/Line-Name.giv`, for pictures, words and feeds.

A dataset without the table, or a line without a row in it, goes by its id: `line 5`. With a row it
is `tram 12`; where several lines would be called alike, as the ways of one route, the id stands
beside it: `tram 12 (line 5)`.
"""

import re
from collections import Counter

from .columns import columns
from .dataset import Dataset
from .faults import RowRefused
from .formats import LINE_NAMES, MODE_OF_TYPE, LineName

COLOUR = re.compile(r"[0-9A-Fa-f]{6}")
TYPE_OF_MODE = {word: kind for kind, word in MODE_OF_TYPE.items()}
# Extended types of routes by their hundreds, after the table of Google's extension of GTFS.
OF_HUNDREDS = {1: 2, 2: 3, 4: 1, 5: 1, 6: 1, 7: 3, 8: 11, 9: 0, 10: 4, 12: 4, 13: 6, 14: 7, 15: 3}


def basic_type(kind: int) -> int:
    """The basic type of routes to which an extended one belongs."""
    return OF_HUNDREDS.get(kind // 100, kind) if kind >= 100 else kind


def mode_of_type(kind: int) -> int | str:
    """The cell of the table for a type of routes: a word, or the number of an extended type."""
    return MODE_OF_TYPE.get(kind, kind)


def type_of_mode(mode: int | str) -> int:
    """The type of routes of a cell of the table."""
    return TYPE_OF_MODE[mode] if isinstance(mode, str) else mode


class LineNames:
    """The rows of the table by line."""

    def __init__(self, data: Dataset) -> None:
        self.rows: dict[int, LineName] = {}
        table = data.get(LINE_NAMES)
        for place, row in enumerate(table):
            if row.line_id in self.rows:
                why = "repeated id"
            elif row.colour and not COLOUR.fullmatch(row.colour):
                at = [it.name for it in columns(LINE_NAMES)].index("colour") + 1
                why = f"column {at} is no colour of six hexadecimal digits"
            else:
                self.rows[row.line_id] = row
                continue
            raise RowRefused(LINE_NAMES.name, table.numbers[place], table.lines[place], why)
        self._often = Counter(map(self._plain, self.rows))

    def __contains__(self, line: int) -> bool:
        return line in self.rows

    def _plain(self, line: int) -> str:
        """The mode and the short name; nothing where there is no short name."""
        row = self.rows[line]
        name = " ".join(row.short_name.split())
        mode = MODE_OF_TYPE.get(basic_type(type_of_mode(row.mode)), "line")
        return f"{mode} {name}" if name else ""

    def called(self, line: int) -> str:
        """What a line is called in words."""
        plain = self._plain(line) if line in self.rows else ""
        if not plain:
            return f"line {line}"
        return plain if self._often[plain] == 1 else f"{plain} (line {line})"

    def short(self, line: int) -> str:
        """The short name of a line; its id where none is told."""
        row = self.rows.get(line)
        return " ".join(row.short_name.split()) if row and row.short_name.strip() else str(line)

    def colour(self, line: int) -> str:
        """The colour of a line as `#rrggbb`; nothing where none is told."""
        row = self.rows.get(line)
        return f"#{row.colour.lower()}" if row is not None and row.colour else ""


def text_colour(colour: str) -> str:
    """Black or white as six digits, whichever is read better on a colour of six digits: by the
    contrast ratio of the Web Content Accessibility Guidelines 2.1."""
    return max("000000", "FFFFFF", key=lambda text: contrast(colour, text))


def contrast(first: str, second: str) -> float:
    """The contrast ratio of two colours of six digits, from 1 to 21."""
    low, high = sorted((_light(first), _light(second)))
    return (high + 0.05) / (low + 0.05)


def _light(colour: str) -> float:
    """The relative luminance of a colour."""
    parts = [int(colour[at : at + 2], 16) / 255 for at in (0, 2, 4)]
    linear = [it / 12.92 if it <= 0.04045 else float(((it + 0.055) / 1.055) ** 2.4) for it in parts]
    return 0.2126 * linear[0] + 0.7152 * linear[1] + 0.0722 * linear[2]
