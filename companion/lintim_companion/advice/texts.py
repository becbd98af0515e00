"""Files as people wrote them: their bytes, their lines as an editor counts, and their rows."""

from functools import cached_property
from typing import Any

from ..cells import File
from ..columns import columns, file_named
from ..rows import Row, decoded, rows_of


class Text:
    """A file of a dataset, whatever its bytes are."""

    def __init__(self, name: str, data: bytes) -> None:
        self.name, self.data = name, data

    @property
    def file(self) -> File[Any] | None:
        """Its row in the table of formats."""
        return file_named(self.name)

    @property
    def titles(self) -> list[str]:
        """The titles of its columns."""
        return [column.title for column in columns(self.file)] if self.file else ["key", "value"]

    @cached_property
    def lines(self) -> list[str]:
        """Its lines, without their ends."""
        found = (line.removesuffix("\r") for line in decoded(self.data).split("\n"))
        return [*found]

    @cached_property
    def rows(self) -> list[Row]:
        """Its rows."""
        return [*rows_of(decoded(self.data))]

    def line(self, number: int) -> str:
        """A line, by the count of an editor."""
        return self.lines[number - 1] if 0 < number <= len(self.lines) else ""

    def line_of(self, row: int) -> int:
        """The line, as an editor counts, of a row as `lintim` counts; 0 where there is none."""
        number = 0
        for at, line in enumerate(self.lines, 1):
            number += line != ""
            if number == row and line:
                return at
        return 0

    def row_at(self, line: int) -> Row | None:
        """The row in a line."""
        return next((row for row in self.rows if row.line == line), None)

    def with_line(self, line: int, new: str | None) -> bytes:
        """The bytes with another line there, or without the line."""
        lines = self.data.split(b"\n")
        old = lines[line - 1]
        end = b"\r" if old.endswith(b"\r") else b""
        lines[line - 1 : line] = [] if new is None else [new.encode() + end]
        return b"\n".join(lines)

    def with_rows(self, *rows: str) -> bytes:
        """The bytes with rows more at the end."""
        end = b"" if not self.data or self.data.endswith(b"\n") else b"\n"
        return self.data + end + "".join(f"{row}\n" for row in rows).encode()


def spelled(cells: list[str]) -> str:
    """A row as `lintim` writes it."""
    return "; ".join(cells)


def replaced(row: Row, place: int, cell: str) -> str:
    """A row with another cell in a place, from 0."""
    return spelled(row.cells[:place] + [cell] + row.cells[place + 1 :])
