"""The config of LinTim with what it includes, and the settings that it comes to here."""

import os
from collections.abc import Iterator
from fractions import Fraction
from pathlib import Path
from typing import NamedTuple

from ..cells import Fixed
from ..columns import Key, allowed, keys
from ..faults import Refused, RowRefused
from ..formats import CONFIG
from ..rows import decoded, rows_of
from ..tables import CellRefused, text_of, value_of
from .forms import AS_IT_IS, KEYS, OWN_KEYS, SECONDS
from .source import MENDED, Notes, Source, plain_number, read_anywhere

OF = {key.name: key for key in keys()}
FALSE, TRUE = ("false", "0", "no"), ("true", "1", "yes")
MOST_FILES = 1_000
SHOWN = 6
LATEST = 10_080  # the last minute of a day here
OF_SECONDS = Fixed(0, 10**9, "seconds")


class KeyRow(NamedTuple):
    """A value, and where its row stands."""

    value: str
    name: str
    number: int


class LinTimConfig(NamedTuple):
    """The rows that count, by their keys, and files that are included and not there."""

    rows: dict[str, KeyRow]
    absent: list[str]

    def text(self, key: str) -> str:
        """The value of a key; an empty text where no row has it."""
        return self.rows[key].value if key in self.rows else ""


class _Reading:
    """Config files, read in the place where they are included."""

    def __init__(self) -> None:
        self.rows: dict[str, KeyRow] = {}
        self.absent: list[str] = []
        self.files = 0

    def read(self, path: Path, name: str, within: tuple[Path, ...], is_needed: bool) -> None:
        real = Path(os.path.realpath(path))
        if real in within:
            raise Refused(f"{name} includes itself: {_ring((*within, real))}; take one include out")
        self.files += 1
        if self.files > MOST_FILES:
            raise Refused(f"{CONFIG} includes more than {MOST_FILES} files")
        data = read_anywhere(path, name)
        if data is None:
            self.absent += [name] if is_needed else []
            return
        for key, row in _rows(name, data):
            if key in ("include", "include_if_exists"):
                if "\0" in row.value:
                    raise Refused(f"{row.name} row {row.number}: no file has such a name; {MENDED}")
                there = path.parent / row.value
                self.read(there, row.value, (*within, real), key == "include")
            else:
                self.rows[key] = row


def _ring(paths: tuple[Path, ...]) -> str:
    """The names of the files of a ring of includes."""
    begin = paths.index(paths[-1])
    return " includes ".join(path.name for path in paths[begin:])


def _rows(name: str, data: bytes) -> Iterator[tuple[str, KeyRow]]:
    for number, line, cells in rows_of(decoded(data)):
        if len(cells) > 2:
            found = f"{len(cells)} found, wanted 2: key; value"
            raise RowRefused(name, number, line, "wrong number of fields", found)
        yield cells[0], KeyRow(cells[1] if len(cells) == 2 else "", name, number)


def read(source: Source) -> LinTimConfig:
    """The config of a folder of LinTim: includes stand relative to their file, also outside of the
    folder, and later rows win."""
    reading = _Reading()
    reading.read(source.folder / CONFIG, CONFIG, (), True)
    return LinTimConfig(reading.rows, reading.absent)


class Units(NamedTuple):
    """Minutes of LinTim's day in minutes here: a time unit of LinTim is one minute."""

    per_minute: int

    def of_seconds(self, millionths: int) -> Fraction:
        """Seconds, in millionths, as minutes here."""
        return Fraction(millionths * self.per_minute, 60 * 10**6)


def units_of(config: LinTimConfig, notes: Notes) -> Units:
    """How many time units a minute has."""
    text = config.text("time_units_per_minute") or "1"
    per_minute = int(text.removesuffix(".0")) if text.removesuffix(".0").isdecimal() else 0
    if not 1 <= per_minute <= 60_000:
        raise Refused(f"time_units_per_minute is {text!r}, and a whole number from 1 is wanted")
    if per_minute != 1:
        notes.lose(
            f"a minute has {per_minute} time units, and a time unit of LinTim is one minute here:"
            f" read each minute of a report as a {per_minute}th of one"
        )
    return Units(per_minute)


def settings_of(config: LinTimConfig, units: Units, notes: Notes) -> dict[str, int | str]:
    """The settings that the config comes to, without those of sources and pinned plans."""
    values: dict[str, int | str] = {}
    kinds = {**KEYS, **dict.fromkeys(OWN_KEYS, AS_IT_IS)}
    for key in OF.values():
        if key.name in kinds and key.name in config.rows:
            values[key.name] = _value(key, kinds[key.name], config.rows[key.name], units, notes)
    _tell_missing(config, notes)
    others = [key for key in config.rows if key not in kinds and key not in _KNOWN]
    if others:
        told = ", ".join(others[:SHOWN]) + (" .." if len(others) > SHOWN else "")
        notes.lose(f"{len(others)} keys of LinTim that nothing here reads: {told}")
    return values


_KNOWN = ("time_units_per_minute", "ptn_is_undirected")


def _value(key: Key, kind: str, row: KeyRow, units: Units, notes: Notes) -> int | str:
    """The value of a key."""
    text = plain_number(row.value)
    try:
        value = value_of(key.cell if kind != SECONDS else OF_SECONDS, text)
    except CellRefused as why:
        raise Refused(
            f"{row.name} row {row.number}: {key.name} {why}: {row.value!r}, wanted"
            f" {allowed(key.cell)}; {MENDED}"
        ) from None
    if kind != SECONDS or isinstance(value, str):
        return value
    minutes = units.of_seconds(value)
    whole = -(-minutes.numerator // minutes.denominator)
    if key.name == "DM_latest_time":
        whole = minutes.numerator // minutes.denominator
    if minutes != whole:
        notes.lose(f"{key.name} is {row.value} seconds, which is taken as {whole} minutes here")
    if whole > LATEST:
        notes.lose(f"{key.name} would be {whole} minutes here, and {LATEST} is the most: it is cut")
    return min(whole, LATEST)


def doubled_costs(values: dict[str, int | str], notes: Notes) -> dict[str, int | str]:
    """Costs of a line that stands for two opposite ones, where these fit."""
    found: dict[str, int | str] = {}
    for name in ("lpool_costs_fixed", "lpool_costs_length", "lpool_costs_edges"):
        key = OF[name]
        twice = 2 * int(values.get(name, key.default))
        try:
            found[name] = value_of(key.cell, text_of(key.cell, twice))
        except CellRefused:
            notes.lose(f"{name} would be twice as much, since a line stands for two: it is not")
            return {}
    notes.say("costs of a line are twice those of the keys, since it stands for two of LinTim")
    return found


def _tell_missing(config: LinTimConfig, notes: Notes) -> None:
    """Tells which files are not beside, and which keys no file has."""
    missing = [name for name in KEYS if name not in config.rows]
    for name in config.absent:
        if name == CONFIG:
            notes.lose(f"{CONFIG} is not there, so each key is what lintim has where no row is")
            return
        notes.say(f"{name}, which is included, is not there")
    if missing:
        told = ", ".join(f"{name} ({_default(name)})" for name in missing)
        notes.lose(f"keys that no file has, which are as lintim has them: {told}")


def _default(name: str) -> str:
    return text_of(OF[name].cell, OF[name].default)


def is_directed(config: LinTimConfig) -> bool | None:
    """Whether the network is directed; none where no row says it."""
    text = config.text("ptn_is_undirected").lower()
    if text and text not in FALSE + TRUE:
        raise Refused(f"ptn_is_undirected is {text!r}, and true or false is wanted")
    return text in FALSE if text else None
