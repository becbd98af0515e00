"""Feeds as zip files of comma separated texts: what stands in them, row by row.

A text is read as UTF-8, with or without a byte order mark; bytes that are no UTF-8 are taken as
Latin-1 and counted. Rows are read one after the other, so a large file takes little memory. A row
has at most so many characters, and a large file unpacks to at most so many times its packed size.
"""

import codecs
import csv
import io
import lzma
import struct
import zipfile
import zlib
from collections import Counter
from collections.abc import Iterator
from pathlib import Path

from ..faults import Refused

FAULTS = (  # what a damaged zip file may raise
    zipfile.BadZipFile,
    zlib.error,
    lzma.LZMAError,
    struct.error,
    EOFError,
    OSError,
    RuntimeError,
    ValueError,
    OverflowError,
)
MAX_ROW = 1 << 20  # the characters of a row
MAX_BYTES = 1 << 32  # of an unpacked file
SMALL = 1 << 24  # the bytes of an unpacked file that may be packed as tightly as it can be
MAX_RATIO = 100  # of the bytes of a larger file to those in which it is packed
LATIN = "lintim-latin-1"
Row = tuple[int, list[str]]
_strange = Counter[str]()  # how many bytes were no UTF-8


def _as_latin(fault: UnicodeError) -> tuple[str, int]:
    if not isinstance(fault, UnicodeDecodeError):
        raise fault
    bad = fault.object[fault.start : fault.end]
    _strange["bytes"] += len(bad)
    return bad.decode("latin-1"), fault.end


codecs.register_error(LATIN, _as_latin)
csv.field_size_limit(MAX_ROW)


class Feed:
    """The files of a feed, of a zip file or of its bytes; `folder` is the folder inside of it in
    which all files stand, which the reference does not allow."""

    def __init__(self, path: Path, data: bytes | None = None) -> None:
        self.path = path
        self.not_utf8: set[str] = set()
        self.uneven: dict[str, tuple[int, int]] = {}  # rows with too many cells, and the first one
        try:
            self.zip = zipfile.ZipFile(path if data is None else io.BytesIO(data))
            names = [it.filename for it in self.zip.infolist() if not it.is_dir()]
        except FileNotFoundError:
            raise Refused(f"{path}: no such file") from None
        except OSError as why:
            raise Refused(f"{path} cannot be read: {why.strerror or why}") from None
        except FAULTS as why:
            raise Refused(f"{path} is no zip file that can be read: {why}") from None
        names = [name for name in names if not name.startswith("__MACOSX/")]
        self.folder = _folder_of(names)
        self.names = {name.removeprefix(self.folder): name for name in names}
        self.size = len(data) if data is not None else path.stat().st_size

    def __contains__(self, name: str) -> bool:
        return name in self.names

    def lines(self, name: str) -> Iterator[Row]:
        """The rows of a file with their lines as an editor counts, the header first; rows without
        any cell are passed over."""
        before = _strange["bytes"]
        try:
            there = self.zip.getinfo(self.names[name])
            _see_size(name, there, self.size)
            with self.zip.open(there) as data:
                text = io.TextIOWrapper(data, "utf-8-sig", errors=LATIN, newline="")
                yield from _seen(name, _rows(text))
        except csv.Error as why:
            raise Refused(f"{name} cannot be read: {why}") from None
        except FAULTS as why:
            raise Refused(f"{name} cannot be read: {why}") from None
        finally:
            if _strange["bytes"] > before:
                self.not_utf8.add(name)

    def header(self, name: str) -> list[str]:
        """The names of the fields of a file."""
        for _, cells in self.lines(name):
            return [cell.strip() for cell in cells]
        return []

    def records(self, name: str, *fields: str) -> Iterator[tuple[int, list[str]]]:
        """The cells of these fields, row by row; a field that is not there is empty. Nothing where
        the file is not there. Blanks round a cell do not count."""
        if name not in self:
            return
        lines = self.lines(name)
        header = [cell.strip() for cell in next(lines, (0, [""]))[1]]
        places = [header.index(field) if field in header else -1 for field in fields]
        width = len(header)
        for number, cells in lines:
            count = len(cells)
            if count > width:
                often, first = self.uneven.get(name, (0, number))
                self.uneven[name] = often + 1, first
            yield number, [cells[at].strip() if 0 <= at < count else "" for at in places]

    def see(self, name: str, *fields: str) -> None:
        """Sees that a file is there and has these fields."""
        if name not in self:
            raise Refused(f"{self.path}: {name} is missing")
        header = self.header(name)
        for field in fields:
            if field not in header:
                raise Refused(f"{name} row 1: no field {field}")


class _Lines:
    """The lines of a text, as long as those of one row are not too long together."""

    def __init__(self, text: io.TextIOWrapper) -> None:
        self.text, self.of_row = text, 0

    def __iter__(self) -> "_Lines":
        return self

    def __next__(self) -> str:
        line = self.text.readline(MAX_ROW + 1)
        if not line:
            raise StopIteration
        self.of_row += len(line)
        if self.of_row > MAX_ROW:
            raise csv.Error(f"a row has more than {MAX_ROW} characters")
        return line


def _rows(text: io.TextIOWrapper) -> Iterator[Row]:
    lines = _Lines(text)
    reader = csv.reader(lines)
    number = 1
    for cells in reader:
        lines.of_row = 0
        if any(cells):
            yield number, cells
        number = reader.line_num + 1


def _seen(name: str, rows: Iterator[Row]) -> Iterator[Row]:
    """Rows, where the first one does not look like a text of another kind."""
    for place, (number, cells) in enumerate(rows):
        if place == 0:
            if any("\0" in cell for cell in cells):
                raise Refused(f"{name} is UTF-16 or no text; the reference wants UTF-8")
            for sign, what in ((";", "semicolons"), ("\t", "tabs")):
                if len(cells) == 1 and sign in cells[0]:
                    raise Refused(
                        f"{name} has {what} between its cells; the reference wants commas"
                    )
        yield number, cells


def _see_size(name: str, there: zipfile.ZipInfo, whole: int) -> None:
    """Sees that a file of a zip file, which has so many bytes as a whole, is not far larger."""
    if there.file_size > MAX_BYTES:
        raise Refused(f"{name} is too long")
    packed = min(there.compress_size, whole)
    if there.file_size > SMALL and there.file_size > MAX_RATIO * packed:
        says = f"{there.file_size >> 20} MB out of {packed} bytes, more than {MAX_RATIO} to 1"
        raise Refused(f"{name} unpacks to {says}")


def _folder_of(names: list[str]) -> str:
    """The folder in which all files stand, `` where they stand at the top."""
    folders = {name.rpartition("/")[0] for name in names}
    if len(folders) == 1 and (folder := folders.pop()):
        return f"{folder}/"
    return ""
