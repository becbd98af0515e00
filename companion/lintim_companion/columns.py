"""What the table in `formats` says of a column or a key, for readers, messages and pages."""

from functools import cache
from typing import Any, NamedTuple, get_args, get_type_hints

from . import formats
from .cells import Cell, File, Fixed, Text, Use, Whole, WholeOrWord, Word


class Column(NamedTuple):
    """A column of a file: its name in rows, its title in the header, and what its cells hold."""

    name: str
    title: str
    cell: Cell
    says: str


class Key(NamedTuple):
    """A key of the settings, what its value may be, and what it is where no row has it."""

    name: str
    cell: Cell
    use: Use
    default: int | str


@cache
def columns(file: File[Any]) -> tuple[Column, ...]:
    """The columns of the rows of a file."""
    found = []
    for name, hint in get_type_hints(file.row, include_extras=True).items():
        cell, says = get_args(hint)[1:]
        found.append(Column(name, name.replace("_", "-"), cell, says))
    return tuple(found)


@cache
def keys() -> tuple[Key, ...]:
    """The keys of the settings, in the order in which their values are tested."""
    hints = get_type_hints(formats.Settings, include_extras=True)
    defaults = formats.Settings()._asdict()
    return tuple(
        Key(name, get_args(hint)[1], get_args(hint)[2], defaults[name])
        for name, hint in hints.items()
    )


def header(file: File[Any]) -> str:
    """The first line of a file, as the program writes it."""
    return "# " + "; ".join(column.title for column in columns(file))


def file_named(name: str) -> File[Any] | None:
    """The file of a dataset with this name, if there is one."""
    return next((file for file in formats.FILES if file.name == name), None)


def allowed(cell: Cell) -> str:
    """What a cell may hold, in words."""
    if isinstance(cell, Whole):
        return f"whole {cell.least} to {cell.greatest}"
    if isinstance(cell, Fixed):
        return f"fixed {cell.least} to {cell.greatest}"
    if isinstance(cell, Word):
        return " or ".join(cell.words)
    if isinstance(cell, WholeOrWord):
        return f"{allowed(cell.whole)}, or {' or '.join(cell.words)}"
    return "any text"


def unit(cell: Cell) -> str:
    """What the numbers of a cell count, or of what they are ids; empty where they are neither."""
    if isinstance(cell, Whole) and cell.id_of:
        return f"id of {'an' if cell.id_of[0] in 'aeiou' else 'a'} {cell.id_of}"
    if isinstance(cell, WholeOrWord):
        return unit(cell.whole)
    return "" if isinstance(cell, Word | Text) else cell.unit


def holds(cell: Cell) -> str:
    """What a cell holds, in words: its range with its unit, or of what it is the id."""
    of = unit(cell)
    if of.startswith("id of ") and isinstance(cell, Whole):
        return of if cell.least else f"{of}, or 0"
    return f"{allowed(cell)} {of}".rstrip()


def is_fixed(cell: Cell) -> bool:
    """Whether the numbers of a cell are kept in millionths."""
    return isinstance(cell, Fixed)
