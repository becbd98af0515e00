"""What a cell may hold, in plain words."""

from ..cells import Cell, Fixed, Text, Whole, WholeOrWord, Word
from ..columns import unit


def wanted(cell: Cell) -> str:
    """What is wanted in a cell."""
    if isinstance(cell, Whole) and cell.id_of:
        return f"the {unit(cell)}, a whole number"
    if isinstance(cell, Whole):
        return f"a whole number from {cell.least} to {cell.greatest} {cell.unit}".rstrip()
    if isinstance(cell, Fixed):
        return f"a number from {cell.least} to {cell.greatest} {cell.unit}".rstrip()
    if isinstance(cell, Word):
        return one_of(cell.words)
    if isinstance(cell, WholeOrWord):
        return f"{wanted(cell.whole)}, or {' or '.join(cell.words)}"
    return "any text"


def one_of(words: tuple[str, ...]) -> str:
    """One of some words."""
    return " or ".join(words) if len(words) < 3 else f"one of {', '.join(words)}"


def is_text(cell: Cell) -> bool:
    """Whether anything may stand there."""
    return isinstance(cell, Text)
