"""Rows, cells and numbers of a text, as `lintim` reads and writes them (docs/FORMAT.md)."""

import re
from collections.abc import Iterator
from typing import NamedTuple

from .cells import MILLION

BYTE_ORDER_MARK = b"\xef\xbb\xbf"
BLANKS = " \t"
NUMBER = re.compile(r"(-?)([0-9]+)(?:\.([0-9]+))?")
GREATEST_WHOLE = 10**18
GREATEST_FIXED = 10**12


class Row(NamedTuple):
    """The cells of a row, its number as `lintim` counts, and its line as an editor counts."""

    number: int
    line: int
    cells: list[str]


def decoded(data: bytes) -> str:
    """The text of some bytes: as UTF-8, and lines that are none as Latin-1."""
    try:
        return data.decode()
    except UnicodeDecodeError:
        return "\n".join(map(_decoded_line, data.split(b"\n")))


def _decoded_line(line: bytes) -> str:
    try:
        return line.decode()
    except UnicodeDecodeError:
        return line.decode("latin-1")


def rows_of(text: str) -> Iterator[Row]:
    """The rows of a text. Empty lines have no number, and comments are no rows."""
    number = 0
    for at, line in enumerate(text.split("\n"), 1):
        if line.endswith("\r"):
            line = line[:-1]
        if line:
            number += 1
            cells = cells_of(line)
            if cells:
                yield Row(number, at, cells)


def cells_of(line: str) -> list[str]:
    """The cells of a line, none where it has nothing but a comment."""
    if "#" in line:
        line = line[: line.index("#")]
    cells = [cell.strip(BLANKS) for cell in line.split(";")]
    if not cells[-1]:
        if len(cells) == 1:
            return []
        cells.pop()
    return [unquoted(cell) for cell in cells] if '"' in line else cells


def unquoted(cell: str) -> str:
    """A cell without the pair of quotes round it; what is inside stays as it is."""
    is_quoted = len(cell) > 1 and cell[0] == cell[-1] == '"'
    return cell[1:-1] if is_quoted else cell


def units_of(digits: str) -> int:
    """The number of some digits; one of very many is only told to be beyond all limits."""
    digits = digits.lstrip("0")
    return int(digits or "0") if len(digits) < 40 else 10**40


def whole(cell: str, greatest: int = GREATEST_WHOLE) -> int | None:
    """A whole number, which may have zeros after a point; none where the cell is no such number."""
    parts = NUMBER.fullmatch(cell)
    if parts is None:
        return None
    sign, digits, fraction = parts.groups()
    value = units_of(digits)
    if value > greatest or (fraction or "").strip("0"):
        return None
    return -value if sign else value


def millionths(cell: str, greatest: int = GREATEST_FIXED) -> int | None:
    """A number as whole millionths, further digits dropped; none where the cell is no number, or
    one of more than so many units."""
    parts = NUMBER.fullmatch(cell)
    if parts is None:
        return None
    sign, digits, fraction = parts.groups()
    units, fraction = units_of(digits), fraction or ""
    if units > greatest or units == greatest and fraction.strip("0"):
        return None
    value = units * MILLION + int((fraction + "000000")[:6])
    return -value if sign else value


def number_text(value: int) -> str:
    """The shortest spelling of a number of millionths."""
    units, fraction = divmod(abs(value), MILLION)
    sign = "-" if value < 0 else ""
    return f"{sign}{units}" + (f".{fraction:06}".rstrip("0") if fraction else "")
