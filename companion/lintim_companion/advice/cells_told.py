"""Cells that are refused: what was found, what the column holds, and what was probably meant."""

import re

from ..cells import Cell, Fixed, Whole, WholeOrWord, Word
from ..columns import Column, columns
from ..formats import DEMAND, POOL
from ..rows import Row
from . import lintim_told
from .context import Context
from .findings import LONGEST_LINE, Finding, call, finding, shown, take_out, write_line
from .nearest import nearest_name
from .ranges import is_text, wanted
from .spellings import TOTALS, fits, meant
from .texts import Text as Found
from .texts import replaced

COMMA = re.compile(r"-?\d+,\d+")
GROUPED = re.compile(r"[1-9]\d{0,2},\d{3}")


def of_cell(it: Context, text: Found, line: int, place: int, rule: str) -> Finding:
    """A cell that is no number, out of range, or an unknown word; `place` counts from 0."""
    row = text.row_at(line)
    if row is None or text.file is None or place >= len(row.cells):
        return finding(f"{text.name} line {line}: {rule}", file=text.name)
    column = columns(text.file)[place]
    where = f"{text.name} line {line}"
    if line <= 2 and _is_header(text, row):
        fix = write_line(text.name, line, "# " + text.line(line))
        says = f"{where} is a header without # before it: {shown(text.line(line))}"
        return finding(says, remedy=fix, file=text.name)
    if is_matrix(text):
        return matrix_told(it, text)
    cell = row.cells[place]
    look = meant(column.cell, cell)
    says = f"{where}: {column.title} is {quoted(cell)}, and {wanted(column.cell)} is wanted"
    more = [shown(text.line(line))] + ([f"{quoted(cell)}: {look.says}"] if look else [])
    whole = _of_all(text, place, cell)
    if whole is not None:
        return finding(says, *more, whole[0], remedy=whole[1], file=text.name)
    values = [look.value] if look and look.value else []
    values += _guesses(column.cell, cell, rule)
    fixes: list[str | None] = [replaced(row, place, value) for value in values]
    if row.cells[0].lower().strip(":. ") in TOTALS or look is None and rule == "is not a number":
        fixes.append(None)
    best = it.copy.first_that_helps(text.name, line, fixes)
    return finding(says, *more, remedy=_remedy(text, line, best, column), file=text.name)


def _of_all(text: Found, place: int, cell: str) -> tuple[str, str] | None:
    """What is wrong in many rows in the same way, and what puts all of them right."""
    there = lintim_told.empty_lines(text, place, cell)
    if there is not None:
        return there
    commas = [cell for row in text.rows for cell in row.cells if COMMA.fullmatch(cell)]
    if len(commas) > 1 and cell in commas and not _has_names(text):
        are_groups = all(map(GROUPED.fullmatch, commas)) and text.name == DEMAND.name
        what, sign = ("separators of thousands", "") if are_groups else ("decimal commas", ".")
        says = f"{len(commas)} cells of {text.name} have {what}"
        return says, call(f"sed -i 's/\\([0-9]\\),\\([0-9]\\)/\\1{sign}\\2/g' {text.name}")
    firsts = [row.cells[1] for row in text.rows if len(row.cells) == 3]
    if text.name == POOL.name and place == 1 and firsts.count("0") > 0 and len(firsts) > 1:
        says = "the places of a line are counted from 1, and here from 0"
        count = '/^ *[0-9"]/ { $2 = $2 + 1 } 1'
        new = f"awk -F '; *' -v OFS='; ' '{count}' {text.name} > {text.name}.new"
        return says, call(f"{new} && mv {text.name}.new {text.name}")
    return None


def _has_names(text: Found) -> bool:
    return text.file is not None and any(is_text(by.cell) for by in columns(text.file))


def _remedy(text: Found, line: int, best: str | None, column: Column) -> str:
    if best is None or len(best) > LONGEST_LINE:
        return f"write {wanted(column.cell)} as {column.title} in line {line} of {text.name}"
    return write_line(text.name, line, best) if best else take_out(text.name, line)


def _guesses(cell: Cell, text: str, rule: str) -> list[str]:
    """What may have been meant by a number out of its range, or a word."""
    if isinstance(cell, Word):
        near = nearest_name(text, cell.words, 0.5)
        return [near] if near else []
    ends = cell.whole if isinstance(cell, WholeOrWord) else cell
    if rule != "is out of range" or not isinstance(ends, Whole | Fixed):
        return []
    guesses = [text[1:]] if text.startswith("-") else [str(max(ends.least, 1))]
    is_below = text.startswith("-") or text.strip("0.") == ""
    return [guess for guess in guesses if is_below and fits(cell, guess)]


def _is_header(text: Found, row: Row) -> bool:
    """Whether no cell of the first row is a number, though columns want some."""
    if text.file is None or not text.rows or text.rows[0].line != row.line:
        return False
    numbers = [isinstance(column.cell, Whole | Fixed) for column in columns(text.file)]
    cells = [cell for cell, is_number in zip(row.cells, numbers) if is_number]
    return len(cells) > 0 and all(re.search(r"[^\W\d]{2}", cell) for cell in cells)


def is_matrix(text: Found) -> bool:
    """Whether the rows are a square of numbers with nothing in its diagonal."""
    rows = [row.cells for row in text.rows]
    if text.name != "basis/OD.giv" or len(rows) < 2:
        return False
    return all(
        len(row) == len(rows) and row[at] in ("0", "", "0.0", "-") for at, row in enumerate(rows)
    )


def matrix_told(it: Context, text: Found) -> Finding:
    """Demand as a square table, told as the rows that it stands for."""
    count, stops = len(text.rows), sorted(it.names.stops)
    says = f"{text.name} is a square table of {count} times {count} numbers"
    titles = "; ".join(text.titles)
    rows = []
    if len(stops) >= count:
        rows = [
            f"{stops[a]}; {stops[b]}; {row.cells[b]}"
            for a, row in enumerate(text.rows)
            for b in range(count)
            if row.cells[b] not in ("0", "", "0.0", "-")
        ]
    shown = ", ".join(f"{row}" for row in rows[:3])
    more = f", so it begins with the rows {shown}" if rows else ""
    return finding(
        f"{says}, and lintim wants a row for each two stops: {titles}",
        remedy=f"write a row for each two stops{more}",
        file=text.name,
    )


def quoted(text: str) -> str:
    """A cell as it is told."""
    return "empty" if not text else f"`{shown(text)}`"
