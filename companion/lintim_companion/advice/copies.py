"""A copy of what people write of a dataset, in which `lintim` runs and remedies are tried."""

import os
import re
import shutil
import stat
from collections.abc import Iterator
from contextlib import contextmanager, suppress
from functools import cached_property
from pathlib import Path

from .. import files, program, settings
from ..formats import CONFIG, FILES, MAX_HAND_BYTES
from ..settings import MAX_INCLUDES
from .texts import Text

HAND_FILES = tuple(file.name for file in FILES if not file.stage) + (CONFIG,)
SHOWN_OF_A_HOLE = 4096  # bytes
REFUSED_ROW = re.compile(r"refused: (\S+) row (\d+): (.*)")


class Copy:
    """The copy: its folder, in which `lintim make` ran once, the texts of its files, and the names
    of files that may be included. Remedies are tried in another one beside it."""

    def __init__(self, folder: Path, texts: dict[str, Text], configs: list[str]) -> None:
        self.folder, self.texts, self.configs = folder, texts, configs

    @cached_property
    def answer(self) -> program.Answer:
        """What `lintim make` said of it."""
        return program.run(self.folder, "make")

    @cached_property
    def trial(self) -> Path:
        """The folder in which remedies are tried."""
        return Path(shutil.copytree(self.folder, self.folder.parent / "trial"))

    def text(self, name: str) -> Text:
        """The text of a file, an empty one where it is not there."""
        return self.texts.get(name) or Text(name, b"")

    @contextmanager
    def _changed(self, name: str, data: bytes) -> Iterator[None]:
        """Another text of a file in the trial, for a while."""
        path = self.trial / name
        path.parent.mkdir(parents=True, exist_ok=True)
        old = path.read_bytes() if path.exists() else None
        path.write_bytes(data)
        try:
            yield
        finally:
            path.unlink()
            if old is not None:
                path.write_bytes(old)

    def tried(self, name: str, data: bytes) -> str:
        """The last line of the report with another text of a file."""
        with self._changed(name, data):
            return program.run(self.trial, "make").last

    def with_settings(self, *rows: str) -> program.Answer:
        """The report with rows more at the end of the settings."""
        with self._changed(CONFIG, self.text(CONFIG).with_rows(*rows)):
            return program.run(self.trial, "make")

    def first_that_helps(self, name: str, line: int, texts: list[str | None]) -> str | None:
        """The first text of a line with which the report does not end in the same row any more;
        an empty one where the line is to go."""
        before = REFUSED_ROW.match(self.answer.last)
        old = self.text(name)
        for text in texts:
            after = REFUSED_ROW.match(self.tried(name, old.with_line(line, text)))
            if not after or not before or after.groups()[:2] != before.groups()[:2]:
                return text or ""
        return None


@contextmanager
def copied(folder: Path) -> Iterator[Copy]:
    """A copy of what people write, which is gone afterwards."""
    with files.scratch("lintim-why-") as place:
        texts, base = {}, place / "base"
        (base / "basis").mkdir(parents=True)
        for name in _names(folder):
            data = _data(folder / name)
            if data is not None:
                texts[name] = Text(name, data)
                _write(base / name, folder / name, data)
        configs = sorted(path.name for path in (folder / "basis").glob("*.cnf"))
        yield Copy(base, texts, configs[:MAX_INCLUDES])


def _names(folder: Path) -> Iterator[str]:
    """The files that people write, with the config files that are included."""
    names = dict.fromkeys((*HAND_FILES, *settings.included(folder)))
    yield from (name for name in names if os.path.lexists(folder / name))


def _data(path: Path) -> bytes | None:
    """The bytes of a file, none where it is no regular one or cannot be read; those of one that is
    too long are not read, and of one with holes those up to the first and some of its zeros."""
    try:
        there = path.lstat()
        if not stat.S_ISREG(there.st_mode) or path.parent.is_symlink():
            return None
        if there.st_size > MAX_HAND_BYTES:
            return b""
        with open(path, "rb") as file:
            hole = os.lseek(file.fileno(), 0, os.SEEK_HOLE) if there.st_size else 0
            return os.pread(file.fileno(), hole + SHOWN_OF_A_HOLE, 0)
    except OSError:
        return None


def _write(copy: Path, path: Path, data: bytes) -> None:
    """Copies a file; a hole in it stays one, and one that is too long is all a hole."""
    copy.parent.mkdir(parents=True, exist_ok=True)
    size = path.stat().st_size
    with open(path, "rb") as old, open(copy, "wb") as new:
        if size <= MAX_HAND_BYTES:
            new.write(data)
            for begin, end in _parts(old.fileno(), len(data)):
                os.pwrite(new.fileno(), os.pread(old.fileno(), end - begin, begin), begin)
    os.truncate(copy, size)


def _parts(file: int, begin: int) -> Iterator[tuple[int, int]]:
    """From where to where a file has bytes after so many, between its holes."""
    with suppress(OSError):  # there are none
        while True:
            begin = os.lseek(file, begin, os.SEEK_DATA)
            end = os.lseek(file, begin, os.SEEK_HOLE)
            yield begin, end
            begin = end
