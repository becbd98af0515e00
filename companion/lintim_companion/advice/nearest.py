"""The nearest among names and numbers to one that is not there."""

from collections.abc import Iterable
from difflib import SequenceMatcher, get_close_matches

MANY = 5_000


def nearest_ids(wrong: int, ids: Iterable[int], count: int = 3) -> list[int]:
    """The ids that are most like a wrong one: digits in another order, one digit more, less or
    another, then by their distance."""
    known = sorted(set(ids), key=lambda at: abs(at - wrong))[:MANY]
    return sorted(known, key=lambda at: (_unlike(str(wrong), str(at)), abs(at - wrong)))[:count]


def is_like(a: int, b: int) -> bool:
    """Whether two ids are one but for the order of their digits, or one digit."""
    return _unlike(str(a), str(b)) < 2


def _unlike(a: str, b: str) -> int:
    if sorted(a) == sorted(b):
        return 0
    return 1 if _is_one_edit(a, b) else 2


def _is_one_edit(a: str, b: str) -> bool:
    short, long = sorted((a, b), key=len)
    if len(short) == len(long):
        return sum(x != y for x, y in zip(a, b)) == 1
    return len(long) - len(short) == 1 and any(
        long[:at] + long[at + 1 :] == short for at in range(len(long))
    )


def plain(name: str) -> str:
    """A name without what people spell in several ways."""
    return "".join(sign for sign in name.lower() if sign.isalnum())


def nearest_name(wrong: str, names: Iterable[str], cutoff: float = 0.75) -> str | None:
    """The name that is most like a wrong one, none where all are other words."""
    by_plain = {plain(name): name for name in names}
    it = plain(wrong)
    if it in by_plain:
        return by_plain[it]
    close = get_close_matches(it, by_plain, 1, cutoff)
    if close:
        return by_plain[close[0]]
    inside = [name for name in by_plain if len(it) >= 4 and (it in name or name in it)]
    best = max(inside, key=lambda name: SequenceMatcher(None, it, name).ratio(), default=None)
    return by_plain[best] if best else None
