"""The settings of a dataset: `basis/Config.cnf` with what it includes (docs/SETTINGS.md)."""

import re
from collections.abc import Iterator
from pathlib import Path
from typing import Any, NamedTuple


from .columns import Key, allowed, keys
from .faults import Missing, Refused, RowRefused, ValueRefused
from .files import read_bytes
from .formats import CONFIG, MAX_HAND_BYTES, Settings
from .rows import BYTE_ORDER_MARK, decoded, rows_of
from .tables import CellRefused, text_of, value_of

INCLUDE_NAME = re.compile(r"(?!.*\.\.)[A-Za-z0-9_.-]*\.cnf")
MAX_DEPTH = 8
MAX_INCLUDES = 1_000


class ConfigRow(NamedTuple):
    """A key and its value, and where the row stands: the file, the row as `lintim` counts, and the
    line as an editor does."""

    name: str
    number: int
    line: int
    key: str
    value: str


class Config(NamedTuple):
    """The values of all keys, and the rows from which they come, in reading order."""

    values: Settings
    rows: list[ConfigRow]

    def row_of(self, key: str) -> ConfigRow | None:
        """The row that counts for a key: the last one that has it."""
        return next((row for row in reversed(self.rows) if row.key == key), None)


class _Reading:
    """The rows of config files, read in the place where they are included."""

    def __init__(self, folder: Path) -> None:
        self.folder = folder
        self.includes = 0

    def rows(self, name: str, data: bytes, depth: int) -> Iterator[ConfigRow]:
        if data.startswith(BYTE_ORDER_MARK):
            raise RowRefused(name, 1, 1, "byte order mark")
        for number, line, cells in rows_of(decoded(data)):
            if len(cells) != 2:
                found = f"{len(cells)} found, wanted 2: key; value"
                raise RowRefused(name, number, line, "wrong number of fields", found)
            row = ConfigRow(name, number, line, *cells)
            if row.key in ("include", "include_if_exists"):
                yield from self.included(row, depth)
            else:
                yield row

    def included(self, row: ConfigRow, depth: int) -> Iterator[ConfigRow]:
        if not INCLUDE_NAME.fullmatch(row.value):
            raise _refused(row, "include outside the dataset")
        if depth == MAX_DEPTH:
            raise _refused(row, "includes too deep")
        if self.includes == MAX_INCLUDES:
            raise _refused(row, "too many includes")
        self.includes += 1
        name = f"basis/{row.value}"
        data = read_bytes(self.folder, name, MAX_HAND_BYTES)
        if data is not None:
            yield from self.rows(name, data, depth + 1)
        elif row.key == "include":
            raise Missing(name, f"{row.name} row {row.number} includes it")


def included(folder: Path) -> list[str]:
    """The files that the settings include, each once, as far as they can be read."""
    found: dict[str, int] = {CONFIG: 0}
    left = [CONFIG]
    while left and len(found) <= MAX_INCLUDES:
        name = left.pop(0)
        try:
            data = read_bytes(folder, name, MAX_HAND_BYTES)
        except Refused:
            continue
        for _, _, cells in rows_of(decoded(data or b"")):
            if len(cells) == 2 and cells[0] in ("include", "include_if_exists"):
                other = f"basis/{cells[1]}"
                is_new = INCLUDE_NAME.fullmatch(cells[1]) and other not in found
                if is_new and found[name] < MAX_DEPTH and len(found) <= MAX_INCLUDES:
                    found[other] = found[name] + 1
                    left.append(other)
    return [*found][1:]


def _refused(row: ConfigRow, why: str) -> RowRefused:
    return RowRefused(row.name, row.number, row.line, why, f"{row.key}; {row.value}")


def read(folder: str | Path) -> Config:
    """The settings of a dataset; all defaults where it has no `basis/Config.cnf`."""
    folder = Path(folder)
    data = read_bytes(folder, CONFIG, MAX_HAND_BYTES)
    rows = [] if data is None else list(_Reading(folder).rows(CONFIG, data, 0))
    last = {row.key: row for row in rows}
    values: dict[str, Any] = {}
    for key in keys():
        values[key.name] = _value(key, last.get(key.name), values)
    return Config(Settings(**values), rows)


def _value(key: Key, row: ConfigRow | None, before: dict[str, Any]) -> int | str:
    """The value of a key, after those of the keys before it."""
    value = key.default
    try:
        if row is not None:
            value = value_of(key.cell, row.value)
    except CellRefused:
        raise ValueRefused(key.name, _said(key, row, value)) from None
    if isinstance(value, int):
        lower, period = key.use.not_below, key.use.at_most_half_of
        if lower and value < before[lower] or period and 2 * value > before[period]:
            raise ValueRefused(key.name, _said(key, row, value))
    return value


def _said(key: Key, row: ConfigRow | None, value: int | str) -> str:
    """What is found, and what is wanted."""
    wanted = allowed(key.cell)
    if key.use.not_below:
        wanted += f", not below {key.use.not_below}"
    if key.use.at_most_half_of:
        wanted += f", at most half of {key.use.at_most_half_of}"
    if row is None:
        return f"{text_of(key.cell, value)} where no row has it, wanted {wanted}"
    return f"{row.value!r} in {row.name} row {row.number}, wanted {wanted}"


def with_values(data: bytes, values: dict[str, int | str]) -> bytes:
    """The bytes of a config file with rows for these keys at its end, where they count."""
    cells = {key.name: key.cell for key in keys()}
    lines = []
    for name, value in values.items():
        if name not in cells:
            raise Refused(f"{name} is no key of the settings")
        text = text_of(cells[name], value)
        try:
            is_kept = value_of(cells[name], text) == value
        except CellRefused:
            is_kept = False
        if not is_kept:
            raise ValueRefused(name, f"{value!r}, wanted {allowed(cells[name])}")
        lines.append(f"{name}; {text}\n")
    end = b"" if not data or data.endswith(b"\n") else b"\n"
    return data + end + "".join(lines).encode()
