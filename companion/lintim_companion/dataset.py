"""A dataset as tables: the one reader and writer of all commands.

    from lintim_companion import dataset, formats

    data = dataset.read("examples/market-town")
    data.settings.period_length                  # 30
    [edge.left_stop for edge in data[formats.EDGES]]
    data.frames()["basis/Edge.giv"]              # the same for pandas
    data.graph()                                 # the network for networkx

`read` looks which files are there and reads the settings; a table is read when it is first asked
for, and kept. Numbers are exact: minutes are whole numbers, and numbers with a fraction are whole
numbers of millionths. Faults are `faults.Refused`, one line each.
"""

import os
from collections.abc import Iterable
from pathlib import Path
from typing import TYPE_CHECKING, Any

from . import files
from . import settings as config
from .cells import File, R
from .faults import Missing, Refused, TooLong
from .formats import CONFIG, FILES, MAX_HAND_BYTES, Settings
from .tables import Table, parsed, written

if TYPE_CHECKING:
    import networkx
    import pandas


class Dataset:
    """The files of a folder as tables."""

    def __init__(self, folder: Path, names: frozenset[str], found: config.Config) -> None:
        self.folder, self.names, self.config = folder, names, found
        self._tables: dict[str, Table[Any]] = {}

    @property
    def settings(self) -> Settings:
        """The values of all keys, defaults where no row has them."""
        return self.config.values

    def __contains__(self, file: File[Any]) -> bool:
        return file.name in self.names

    def __getitem__(self, file: File[R]) -> Table[R]:
        """The table of a file that has to be there."""
        if file.name not in self._tables:
            self._tables[file.name] = read_file(self.folder, file)
        return self._tables[file.name]

    def get(self, file: File[R]) -> Table[R]:
        """The table of a file; one without rows where the file is not there."""
        return self[file] if file in self else Table(file, [])

    def tables(self) -> dict[str, Table[Any]]:
        """All tables by the names of their files."""
        return {file.name: self[file] for file in FILES if file in self}

    def frames(self) -> "dict[str, pandas.DataFrame]":
        """All tables for pandas, by the names of their files."""
        from .frames import frame_of

        return {name: frame_of(table) for name, table in self.tables().items()}

    def graph(self, of: str = "network") -> "networkx.MultiGraph":
        """The network, or the events of the `period` or the `day`, for networkx."""
        from .graphs import graph_of

        return graph_of(self, of)


def read(folder: str | Path) -> Dataset:
    """The dataset in a folder."""
    folder = Path(folder)
    files.see_folder(folder)
    names = frozenset(file.name for file in FILES if os.path.lexists(folder / file.name))
    return Dataset(folder, names, config.read(folder))


def read_file(folder: str | Path, file: File[R]) -> Table[R]:
    """The table of one file. A file that a stage makes has no greatest length."""
    data = files.read_bytes(Path(folder), file.name, None if file.stage else MAX_HAND_BYTES)
    if data is None:
        raise Missing(file.name, "run lintim make" if file.stage else "")
    return parsed(file, data)


def write(folder: str | Path, file: File[R], rows: Iterable[R]) -> None:
    """Writes a file with these rows, as `lintim` would. The old one stays until the new one is
    whole, and where that would be longer than `lintim` reads it."""
    data = written(file, rows)
    if not file.stage and len(data) > MAX_HAND_BYTES:
        size, most = (it / 2**20 for it in (len(data), MAX_HAND_BYTES))
        raise TooLong(f"{file.name} would have {size:.1f} MiB, and lintim reads {most:.0f} at most")
    files.write_bytes(Path(folder), file.name, data)


def write_settings(folder: str | Path, values: dict[str, int | str]) -> None:
    """Adds rows for these keys to the end of `basis/Config.cnf`, where they count."""
    data = files.read_bytes(Path(folder), CONFIG, MAX_HAND_BYTES) or b""
    files.write_bytes(Path(folder), CONFIG, config.with_values(data, values))


def remove(folder: str | Path, file: File[Any]) -> None:
    """Takes a file away, where it is there."""
    files.remove(Path(folder), file.name)
