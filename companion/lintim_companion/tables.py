"""Tables of a dataset: the rows of a file with named columns, read from bytes and written to them.

A text is taken or refused as `lintim` does it: the number of cells first, then each cell from the
left, by its kind and its range. Rules that a file has beyond its cells are left to `lintim`.
"""

from array import array
from collections.abc import Callable, Iterable, Iterator
from dataclasses import dataclass, field
from typing import Any, Generic

from .cells import MILLION, Cell, File, Fixed, R, Text, Whole, WholeOrWord, Word
from .columns import allowed, columns, header
from .faults import Refused, RowRefused
from .rows import BYTE_ORDER_MARK, GREATEST_FIXED, Row, cells_of, decoded, millionths
from .rows import number_text, rows_of, whole

NOT_A_NUMBER = "is not a number"
OUT_OF_RANGE = "is out of range"
UNKNOWN_WORD = "is an unknown word"
Spelling = Callable[[str], str]


class CellRefused(Exception):
    """What is wrong with a cell, in the words of `lintim`."""


@dataclass(frozen=True)
class Table(Generic[R]):
    """The rows of a file. `numbers` has the number of each as `lintim` counts, without empty
    lines, and `lines` its line as an editor counts."""

    file: File[R]
    rows: list[R]
    numbers: "array[int]" = field(default_factory=lambda: array("L"), compare=False, repr=False)
    lines: "array[int]" = field(default_factory=lambda: array("L"), compare=False, repr=False)

    def __iter__(self) -> Iterator[R]:
        return iter(self.rows)

    def __len__(self) -> int:
        return len(self.rows)

    def __getitem__(self, place: int) -> R:
        return self.rows[place]

    def column(self, name: str) -> list[Any]:
        """All cells of a column."""
        names = [column.name for column in columns(self.file)]
        if name not in names:
            raise Refused(f"{self.file.name} has no column {name}, but {', '.join(names)}")
        place = names.index(name)
        return [row[place] for row in self.rows]


def value_of(cell: Cell, text: str) -> int | str:
    """The value that a text stands for."""
    if isinstance(cell, Whole):
        value = whole(text)
        return _within(value, cell.least, cell.greatest)
    if isinstance(cell, Fixed):
        value = millionths(text, max(cell.greatest, GREATEST_FIXED))
        return _within(value, cell.least * MILLION, cell.greatest * MILLION)
    if isinstance(cell, Word):
        if text not in cell.words:
            raise CellRefused(UNKNOWN_WORD)
    if isinstance(cell, WholeOrWord) and text not in cell.words:
        return value_of(cell.whole, text)
    return text


def _within(value: int | None, least: int, greatest: int) -> int:
    if value is None:
        raise CellRefused(NOT_A_NUMBER)
    if not least <= value <= greatest:
        raise CellRefused(OUT_OF_RANGE)
    return value


def text_of(cell: Cell, value: int | str) -> str:
    """How a value is written."""
    return number_text(value) if isinstance(cell, Fixed) and isinstance(value, int) else str(value)


def _reader(cell: Cell) -> Callable[[str], int | str]:
    """What reads the cells of a column; plain numbers, which most cells are, in one step."""
    if isinstance(cell, Text):
        return str
    if isinstance(cell, Word):
        words = {word: word for word in cell.words}
        return lambda text: words.get(text) or value_of(cell, text)
    scale = MILLION if isinstance(cell, Fixed) else 1
    ends = cell.whole if isinstance(cell, WholeOrWord) else cell
    least, greatest = ends.least, ends.greatest

    def read(text: str) -> int | str:
        if text.isdigit() and text.isascii() and len(text) < 19:
            number = int(text)
            if least <= number <= greatest:
                return number * scale
        return value_of(cell, text)

    return read


def parsed(file: File[R], data: bytes, spelled: Spelling = str) -> Table[R]:
    """The table of a text. Where a row cannot be read, its cells that are no texts are spelled as
    the texts of another program are to be taken, and it is tried again."""
    if data.startswith(BYTE_ORDER_MARK):
        raise RowRefused(file.name, 1, 1, "byte order mark")
    readers = [_reader(column.cell) for column in columns(file)]
    make: Callable[[Iterable[Any]], R] = getattr(file.row, "_make")
    rows, numbers, lines = [], array("L"), array("L")
    for row in rows_of(decoded(data)):
        if len(row.cells) != len(readers):
            raise _fault(file, row)
        try:
            rows.append(make([read(cell) for read, cell in zip(readers, row.cells)]))
        except CellRefused:
            again = _spelled(file, row, spelled)
            try:
                rows.append(make([read(cell) for read, cell in zip(readers, again.cells)]))
            except CellRefused:
                raise _fault(file, again) from None
        numbers.append(row.number)
        lines.append(row.line)
    return Table(file, rows, numbers, lines)


def _spelled(file: File[Any], row: Row, spelled: Spelling) -> Row:
    """A row whose cells are spelled otherwise, but for texts."""
    cells = [
        cell if isinstance(column.cell, Text) else spelled(cell)
        for column, cell in zip(columns(file), row.cells)
    ]
    return row._replace(cells=cells)


def _fault(file: File[Any], row: Row) -> RowRefused:
    """The first fault of a row that has one."""
    wanted = columns(file)
    if len(row.cells) != len(wanted):
        found = f"{len(row.cells)} found, wanted {len(wanted)}: " + "; ".join(
            column.title for column in wanted
        )
        return RowRefused(file.name, row.number, row.line, "wrong number of fields", found)
    for place, (column, text) in enumerate(zip(wanted, row.cells), 1):
        try:
            value_of(column.cell, text)
        except CellRefused as why:
            said = f"{column.title} is {text!r}, wanted {allowed(column.cell)}"
            return RowRefused(file.name, row.number, row.line, f"column {place} {why}", said)
    raise AssertionError("a row without a fault")


def written(file: File[R], rows: Iterable[R]) -> bytes:
    """The text of a table, as `lintim` writes it: a header, and a line for each row."""
    writers = [_writer(column.cell) for column in columns(file)]
    lines = [header(file)]
    for number, row in enumerate(rows, 2):
        try:
            lines.append("; ".join([write(value) for write, value in zip(writers, row)]))
        except CellRefused:
            raise _not_written(file, number, row) from None
    lines.append("")
    return "\n".join(lines).encode()


def _writer(cell: Cell) -> Callable[[Any], str]:
    """What writes the cells of a column; plain numbers, which most cells are, in one step."""
    if not isinstance(cell, Whole):
        return lambda value: _written_cell(cell, value)
    least, greatest = cell.least, cell.greatest

    def write(value: Any) -> str:
        if type(value) is int and least <= value <= greatest:
            return str(value)
        return _written_cell(cell, value)

    return write


def _written_cell(cell: Cell, value: Any) -> str:
    """A cell that is read as this value again; a text is put in quotes where it needs them."""
    text = text_of(cell, value)
    if isinstance(cell, Text):
        text = text if cells_of(text) == [text] else f'"{text}"'
        if cells_of(text) != [value] or "\n" in text:
            raise CellRefused()
    elif value_of(cell, text) != value:
        raise CellRefused()
    return text


def _not_written(file: File[Any], number: int, row: tuple[Any, ...]) -> RowRefused:
    """The first cell of a row that cannot be written."""
    for place, (column, value) in enumerate(zip(columns(file), row), 1):
        try:
            _written_cell(column.cell, value)
        except CellRefused:
            said = f"{column.title} is {value!r}, wanted {allowed(column.cell)}"
            why = f"column {place} cannot be written"
            return RowRefused(file.name, number, number, why, said)
    raise AssertionError("a row that can be written")
