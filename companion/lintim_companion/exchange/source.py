"""A folder of LinTim that is read and never changed: its files as tables, and what is told of
them."""

import re
from decimal import Decimal
from pathlib import Path
from typing import Any

from ..cells import File, R
from ..columns import columns
from ..faults import Refused, RowRefused
from ..formats import EDGES, STOPS
from ..rows import BYTE_ORDER_MARK, decoded, rows_of
from ..tables import Table, parsed

EXPONENT = re.compile(r"-?[0-9]+(\.[0-9]+)?[eE][+-]?[0-9]{1,3}")
LONG = re.compile(rb"[0-9]\.[0-9]{6}[0-9]*[1-9]")
MENDED = "mend it in the dataset of LinTim, or in a copy of it"


class Notes:
    """What is told of a conversion: what was taken, and what is lost or weaker."""

    def __init__(self) -> None:
        self.lines: list[str] = []
        self.lost: list[str] = []

    def say(self, line: str) -> None:
        """Tells what was taken, or changed without a loss."""
        self.lines.append(line)

    def lose(self, line: str) -> None:
        """Tells what the new dataset does not have, or has as something weaker."""
        self.lost.append(line)


class Source:
    """The folder. Links in it are followed: nothing is written there."""

    def __init__(self, folder: Path) -> None:
        self.folder = folder
        self.dropped: dict[str, int] = {}  # numbers with digits that are cut, by files
        try:
            if not folder.is_dir():
                raise Refused(f"{folder}: {'no folder' if folder.exists() else 'no such folder'}")
            if not (folder / "basis").is_dir():
                raise Refused(f"{folder} is no dataset of LinTim: it has no folder basis")
        except OSError as why:
            raise Refused(f"{folder} cannot be read: {why.strerror}") from None
        for file in (STOPS, EDGES):
            if not (folder / file.name).exists():
                raise Refused(f"{folder} is no whole dataset of LinTim: {file.name} is missing")

    def __contains__(self, file: File[Any]) -> bool:
        return (self.folder / file.name).exists()

    def data(self, name: str) -> bytes | None:
        """The bytes of a file without a byte order mark; none where it is not there."""
        return read_anywhere(self.folder / name, name)

    def table(self, file: File[R]) -> Table[R]:
        """The table of a file; one without rows where the file is not there."""
        data = self.data(file.name)
        if data is None:
            return Table(file, [])
        cut = 0 if file == STOPS else len(LONG.findall(data))
        if cut:
            self.dropped[file.name] = cut
        try:
            return parsed(file, data, plain_number)
        except RowRefused as why:
            raise Refused(f"{why}; {_remedy(why)}") from None

    def optional(self, file: File[R], notes: Notes) -> Table[R]:
        """The table of a file that may be left out; one that cannot be read is told and left."""
        try:
            return self.table(file)
        except Refused as why:
            notes.lose(f"not taken: {why}")
            return Table(file, [])

    def form(self, *forms: File[Any]) -> File[Any]:
        """Of several forms of a file the one that has as many columns as its first row."""
        data = self.data(forms[0].name) or b""
        first = next(rows_of(decoded(data)), None)
        fits = [it for it in forms if first and len(columns(it)) == len(first.cells)]
        return (fits or [*forms])[0]

    def first_there(self, files: tuple[File[R], ...]) -> File[R]:
        """Of several names of a file the first one that is there."""
        return next((file for file in files if file in self), files[0])


def _remedy(why: RowRefused) -> str:
    """What would help where a row is refused."""
    if "column 1 is not a number" in why.why or "-id is" in why.found:
        return "ids are whole numbers here: number them, and " + MENDED
    if "out of range" in why.why and why.name == EDGES.name and "length" in why.found:
        return "tell lengths in kilometres, with lpool_costs_length to match, and " + MENDED
    return MENDED


def plain_number(cell: str) -> str:
    """A number without its exponent, as `2.5E-4`; any other text as it is."""
    return f"{Decimal(cell):f}" if EXPONENT.fullmatch(cell) else cell


def read_anywhere(path: Path, name: str) -> bytes | None:
    """The bytes of a regular file, which may stand outside of the dataset, without a byte order
    mark."""
    try:
        if not path.is_file():
            if path.exists():
                raise Refused(f"{name} is no regular file")
            return None
        return path.read_bytes().removeprefix(BYTE_ORDER_MARK)
    except OSError as why:
        raise Refused(f"{name} cannot be read: {why.strerror}") from None
