"""The kinds of cells and files of which the table in `formats` is made."""

from dataclasses import dataclass
from typing import Any, Generic, TypeVar

MILLION = 10**6


@dataclass(frozen=True)
class Whole:
    """A whole number: a count of units, or the id of something."""

    least: int
    greatest: int
    unit: str = ""
    id_of: str = ""


@dataclass(frozen=True)
class Fixed:
    """A number with up to six digits after the point, kept in millionths; the range is in units."""

    least: int
    greatest: int
    unit: str = ""


@dataclass(frozen=True)
class Word:
    """One of some words."""

    words: tuple[str, ...]


@dataclass(frozen=True)
class WholeOrWord:
    """A whole number, or one of some words."""

    whole: Whole
    words: tuple[str, ...]


@dataclass(frozen=True)
class Text:
    """Any text without a semicolon, a number sign and a line end."""


Cell = Whole | Fixed | Word | WholeOrWord | Text


@dataclass(frozen=True)
class Use:
    """What a key of the settings means, which stages depend on it, and which other keys bound it."""

    says: str
    stages: tuple[str, ...] = ()
    not_below: str = ""
    at_most_half_of: str = ""


def use(says: str, *stages: str, not_below: str = "", at_most_half_of: str = "") -> Use:
    """A `Use` in fewer words."""
    return Use(says, stages, not_below, at_most_half_of)


R = TypeVar("R", bound=tuple[Any, ...], covariant=True)


@dataclass(frozen=True)
class File(Generic[R]):
    """A file of a dataset: its name, its rows, and the stage that makes it, if one does."""

    name: str
    row: type[R]
    stage: str = ""
