"""Bytes of the files of a dataset, under the rules of `lintim`: a file is a regular file, and no
link is followed on the way to it."""

import errno
import os
import shutil
import signal
import stat
import tempfile
from collections.abc import Iterator
from contextlib import contextmanager, suppress
from pathlib import Path

from .faults import Refused


def read_bytes(folder: Path, name: str, most: int | None = None) -> bytes | None:
    """The bytes of a file, which has at most so many; none where it is not there."""
    path = folder / name
    try:
        see_no_link(path)
        there = path.stat()
        if not stat.S_ISREG(there.st_mode):
            raise Refused(f"{name} is no regular file")
        if most is not None and there.st_size > most:
            raise Refused(f"{name} is too long")
        return path.read_bytes()
    except FileNotFoundError:
        return None
    except OSError as why:
        raise Refused(f"{name} cannot be read: {why.strerror}") from None


def see_folder(folder: Path) -> None:
    """Sees that a folder is that of a dataset."""
    try:
        if not folder.is_dir():
            raise Refused(f"{folder}: {'no folder' if folder.exists() else 'no such folder'}")
        if not (folder / "basis").is_dir():
            raise Refused(f"{folder} is no dataset: it has no folder basis")
    except OSError as why:
        raise Refused(f"{folder} cannot be read: {why.strerror}") from None


def write_bytes(folder: Path, name: str, data: bytes) -> None:
    """Writes a file. The old one stays until the new one is whole."""
    path = folder / name
    try:
        see_no_link(path)
        see_regular(path, name)
        path.parent.mkdir(parents=True, exist_ok=True)
        with undisturbed():
            _replace(path, data)
    except OSError as why:
        raise Refused(f"{name} cannot be written: {why.strerror}") from None


def _replace(path: Path, data: bytes) -> None:
    handle, beside = tempfile.mkstemp(dir=path.parent, prefix=f".{path.name}.")
    try:
        with open(handle, "wb") as file:
            file.write(data)
        mask = os.umask(0)
        os.umask(mask)
        os.chmod(beside, 0o666 & ~mask)
        os.replace(beside, path)
    except BaseException:
        os.unlink(beside)
        raise


def remove(folder: Path, name: str) -> None:
    """Takes a file away, where it is there."""
    try:
        (folder / name).unlink(missing_ok=True)
    except OSError as why:
        raise Refused(f"{name} cannot be removed: {why.strerror}") from None


def see_writable(folder: Path, name: str) -> None:
    """Sees, before a long search, that its result can be written."""
    path = folder / name
    see_no_link(path)
    see_regular(path, name)
    there = path.parent
    while not os.path.lexists(there):
        there = there.parent
    if not there.is_dir() or not os.access(there, os.W_OK | os.X_OK):
        raise Refused(f"{name} cannot be written: {there} does not allow it")


def see_regular(path: Path, name: object) -> None:
    """Sees that what stands in the place of a file that is to be written is no folder, no device
    and no pipe: a new file would take its place."""
    if os.path.lexists(path) and not path.is_file():
        raise Refused(f"{name} cannot be written: it is no regular file")


def place_of(path: Path) -> Path:
    """Where a file that belongs to no dataset is to stand, before a long search; a folder on the
    way may be a link."""
    place = path.parent.resolve() / path.name
    see_regular(place, path)
    see_writable(place.parent, place.name)
    return place


def folder_of(path: Path) -> Path:
    """Where files that belong to no dataset are to stand, in a folder that may have to be made."""
    place = path.resolve()
    if os.path.lexists(place) and not place.is_dir():
        raise Refused(f"{path} is no folder, so nothing can be written to it")
    there = next(it for it in (place, *place.parents) if it.exists())
    if not there.is_dir() or not os.access(there, os.W_OK | os.X_OK):
        raise Refused(f"{path} cannot be written: {there} does not allow it")
    return place


def see_new(folder: Path, what: str, first: str) -> None:
    """Sees that nothing stands in the place of a new dataset, and that it can be written."""
    try:
        if folder.is_dir() and any(folder.iterdir()):
            raise Refused(f"{folder} is not empty: {what} writes a new dataset, into a new folder")
        if folder.exists() and not folder.is_dir():
            raise Refused(f"{folder} is no folder")
    except OSError as why:
        raise Refused(f"{folder} cannot be read: {why.strerror}") from None
    see_writable(folder, first)


def write_all(folder: Path, texts: dict[str, bytes]) -> None:
    """Writes the files of a new dataset, all of them or nothing."""
    was_there = folder.exists()
    try:
        for name, text in texts.items():
            write_bytes(folder, name, text)
    except Refused:
        for name in texts:
            (folder / name).unlink(missing_ok=True)
        places = {(folder / name).parent for name in texts}
        for place in [*places, *([] if was_there else [folder])]:
            with suppress(OSError):
                place.rmdir()
        raise


def see_no_link(path: Path) -> None:
    """Sees that no link stands in the place of a file or of its folder."""
    for there in (path, path.parent):
        if there.is_symlink():
            raise Refused(f"{there} is a link, which lintim does not follow")


@contextmanager
def undisturbed() -> Iterator[None]:
    """Puts off signals that would end the command until what is done here is done."""
    ends = {signal.SIGINT, signal.SIGTERM, signal.SIGALRM}
    before = signal.pthread_sigmask(signal.SIG_BLOCK, ends)
    try:
        yield
    finally:
        signal.pthread_sigmask(signal.SIG_SETMASK, before)


@contextmanager
def scratch(prefix: str) -> Iterator[Path]:
    """A folder for a while, which is gone afterwards, also where the command is stopped."""
    try:
        place = Path(tempfile.mkdtemp(prefix=prefix))
    except OSError as why:
        raise Refused(f"no folder can be made in {tempfile.gettempdir()}: {why.strerror}") from None
    try:
        yield place
    except OSError as why:
        if why.errno in (errno.ENOSPC, errno.EDQUOT, errno.EFBIG):
            raise Refused(f"a copy in {place.parent} has no room: {why.strerror}") from None
        raise
    finally:
        with undisturbed():
            shutil.rmtree(place, ignore_errors=True)
