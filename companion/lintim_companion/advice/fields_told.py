"""Rows with more or fewer cells than columns: what stands in the place of the semicolons."""

import re

from ..columns import columns
from .cells_told import is_matrix, matrix_told
from .context import Context
from .encodings import separator_of
from .findings import LONGEST_LINE, Finding, call, either, finding, shown, take_out, write_line
from .spellings import fits
from .texts import Text, spelled
from .values_told import KEYS

ERRORS = re.compile(r"#(?:REF!|N/A|NV|DIV/0!|VALUE!|WERT!|NAME\?|NULL!|NUM!|ZAHL!|BEZUG!)")
SED_OF = {"tabs": "\\t", "commas": ",", "bars": "|", "colons": ":", "an equals sign": "="}


def of_fields(it: Context, text: Text, line: int) -> Finding:
    """A row with the wrong number of cells."""
    if is_matrix(text):
        return matrix_told(it, text)
    row = text.row_at(line)
    found, wanted = len(row.cells) if row else 0, text.titles
    where = f"{text.name} line {line}"
    count = f"{found} cell{'s' if found != 1 else ''}, and {len(wanted)} are wanted"
    head = (f"{where} has {count}: {'; '.join(wanted)}", shown(text.line(line)))
    for look in (_errors, _separators, _number_sign, _quotes, _empty_ends, _wider):
        seen = look(it, text, line)
        if seen is not None:
            return finding(*head, seen[0], remedy=seen[1], file=text.name)
    says = f"write {'; '.join(wanted)} in line {line} of {text.name}"
    out = take_out(text.name, line)
    return finding(*head, remedy=either(says, out), file=text.name)


def _line_or(it: Context, text: Text, line: int, new: str, other: str) -> str:
    """The line to be written, where that helps."""
    helps = len(new) <= LONGEST_LINE and it.copy.first_that_helps(text.name, line, [new])
    return write_line(text.name, line, new) if helps else other


def _errors(it: Context, text: Text, line: int) -> tuple[str, str] | None:
    """Errors of a spreadsheet, whose # begins a comment."""
    error = ERRORS.search(text.line(line))
    if not error:
        return None
    says = f"{error.group()} is an error of a spreadsheet, and # begins a comment"
    return says, f"put the number in line {line} of {text.name} that the sheet could not work out"


def _separators(it: Context, text: Text, line: int) -> tuple[str, str] | None:
    """Tabs, commas or others in the place of semicolons."""
    between = separator_of(text, text.line(line).split("#")[0].strip(), len(text.titles))
    if between is None:
        return None
    sign, name = between
    says = f"its cells are separated by {name}, and lintim wants semicolons"
    cells = [cell.strip() for cell in text.line(line).split(None if sign == " " else sign)]
    if sign == " " and not _are_good(text, cells):
        return None
    if sum(1 for row in text.rows if len(row.cells) == 1) == 1 or name not in SED_OF:
        return says, _line_or(it, text, line, spelled(cells), f"write `{spelled(cells)}`")
    return says, call(f"sed -i '/^#/!s/ *{SED_OF[name]} */; /g' {text.name}")


def _are_good(text: Text, cells: list[str]) -> bool:
    """Whether cells are good ones of the columns."""
    if text.file is None:
        return len(cells) == 2 and cells[0] in KEYS
    wanted = columns(text.file)
    return len(cells) == len(wanted) and all(map(fits, (by.cell for by in wanted), cells))


def _number_sign(it: Context, text: Text, line: int) -> tuple[str, str] | None:
    """A # inside a name, which begins a comment."""
    old = text.line(line)
    if "#" not in old:
        return None
    new = re.sub(r" *# *", " no. ", old, count=1)
    says = "# begins a comment, also inside a name"
    return says, _line_or(it, text, line, new, f"take # out of line {line} of {text.name}")


def _quotes(it: Context, text: Text, line: int) -> tuple[str, str] | None:
    """A semicolon inside quotes, which protect nothing."""
    old = text.line(line)
    quoted = re.search(r'"([^";]*;[^"]*)"', old)
    if not quoted:
        return None
    new = old.replace(quoted.group(), re.sub(r" *; *", ", ", quoted[1]).strip())
    says = "a semicolon ends a cell also inside quotes"
    return says, _line_or(it, text, line, new, f"take the semicolon out of {quoted.group()}")


def _empty_ends(it: Context, text: Text, line: int) -> tuple[str, str] | None:
    """Empty cells at the end, as spreadsheets leave them."""
    old = text.line(line)
    new = old.rstrip("; \t")
    if not old.rstrip(" \t").endswith(";"):
        return None
    says = "empty cells stand at its end; lintim leaves out one"
    if len([one for one in text.lines if one.rstrip(" \t").endswith(";;")]) > 1:
        return says, call(f"sed -i 's/[; ]*\\(\\r*\\)$/\\1/' {text.name}")
    return says, _line_or(it, text, line, new, f"take the empty cells out of {text.name}")


def _wider(it: Context, text: Text, line: int) -> tuple[str, str] | None:
    """More cells than columns in each row, or fewer."""
    row = text.row_at(line)
    if row is None or text.file is None:
        return None
    wanted = len(text.titles)
    counts = {len(row.cells) for row in text.rows}
    if len(counts) != 1 or len(text.rows) < 2:
        return _short(it, text, line)
    more = len(row.cells) - wanted
    if more > 0:
        cells = ",".join(map(str, range(1, wanted + 1)))
        says = f"all rows have {more} column{'s' if more > 1 else ''} more than lintim reads"
        new = f"cut -d';' -f{cells} {text.name} > {text.name}.new"
        return says, call(f"{new} && mv {text.name}.new {text.name}")
    says = f"all rows lack {-more} column{'s' if more < -1 else ''}"
    return _filled(it, text, line, says) or _short(it, text, line)


def _filled(it: Context, text: Text, line: int, says: str) -> tuple[str, str] | None:
    """Stops without names or coordinates, which are not read, so anything may stand there."""
    row = text.row_at(line)
    if text.name != "basis/Stop.giv" or row is None or len(row.cells) == len(text.titles):
        return None
    fill = "; -" * (len(text.titles) - len(row.cells))
    return says, call(f"sed -i '/^#/!s/[; ]*\\(\\r*\\)$/{fill}\\1/' {text.name}")


def _short(it: Context, text: Text, line: int) -> tuple[str, str] | None:
    """A row alone that has one cell too many or too few."""
    row = text.row_at(line)
    wanted = len(text.titles)
    if row is None:
        return None
    if len(row.cells) > wanted:
        new = spelled(row.cells[:wanted])
        says = f"beyond column {wanted} stands {'; '.join(row.cells[wanted:])}"
        return says, _line_or(it, text, line, new, take_out(text.name, line))
    if wanted == 2 and len(row.cells) == 1:
        cells = re.split(r"\s*[=:,\s]\s*", row.cells[0], maxsplit=1)
        if len(cells) == 2:
            says = "a semicolon stands between a key and its value"
            return says, _line_or(it, text, line, spelled(cells), take_out(text.name, line))
    return None
