"""Cells of a feed: times, dates, places and words, after the field types of the GTFS reference."""

import datetime
import re
import zoneinfo
from collections.abc import Callable
from functools import cache

from ..clocks import clock

TIME = re.compile(r"([0-9]{1,3}):([0-5][0-9]):([0-5][0-9])")
DATE = re.compile(r"[0-9]{8}")
NUMBER = re.compile(r"[+-]?(?:[0-9]+(?:\.[0-9]*)?|\.[0-9]+)(?:[eE][+-]?[0-9]{1,3})?")
COLOR = re.compile(r"[0-9A-Fa-f]{6}")
URL = re.compile(r"https?://\S+", re.I)
EMAIL = re.compile(r"[^@\s]+@[^@\s]+")
LANGUAGE = re.compile(r"[A-Za-z]{2,3}(?:-[A-Za-z0-9]{2,8})*")
ZONE = re.compile(r"[A-Za-z][\w+-]*(?:/[\w+-]+)*")
CURRENCY = re.compile(r"[A-Z]{3}")
BASIC_ROUTE_TYPES = frozenset((0, 1, 2, 3, 4, 5, 6, 7, 11, 12))


def seconds_of(text: str) -> int | None:
    """A time `HH:MM:SS` as seconds after the noon less 12 hours of the day; above 24 hours for a
    time after midnight. None where it is no time."""
    parts = TIME.fullmatch(text.strip())
    if parts is None:
        return None
    hours, minutes, seconds = map(int, parts.groups())
    return hours * 3600 + minutes * 60 + seconds


def date_of(text: str) -> datetime.date | None:
    """A date `YYYYMMDD`; none where it is no date."""
    text = text.strip()
    if not DATE.fullmatch(text):
        return None
    try:
        return datetime.date(int(text[:4]), int(text[4:6]), int(text[6:]))
    except ValueError:
        return None


def number_of(text: str) -> float | None:
    """A number; none where it is no finite one."""
    if not NUMBER.fullmatch(text.strip()):
        return None
    value = float(text)
    return value if abs(value) < 1e300 else None


def whole_of(text: str) -> int | None:
    """A whole number from 0; none where it is none."""
    text = text.strip()
    return int(text) if text.isascii() and text.isdigit() and len(text) < 19 else None


def degrees_of(text: str, most: int) -> float | None:
    """Degrees from -most to most; none where they are none."""
    value = number_of(text)
    return value if value is not None and abs(value) <= most else None


def time_cell(minute: int) -> str:
    """A minute of the day as `HH:MM:00`; 24:10:00 is ten minutes after midnight."""
    return f"{clock(minute)}:00"


@cache
def _zones() -> frozenset[str]:
    """The names of time zones that the system has."""
    return frozenset(zoneinfo.available_timezones())


def _is_zone(text: str) -> bool:
    """Whether a time zone has this name; where the system has no names, whether it looks so."""
    return bool(ZONE.fullmatch(text)) and (text in _zones() or not _zones())


def _is_route_type(text: str) -> bool:
    value = whole_of(text)
    return value is not None and (value in BASIC_ROUTE_TYPES or 100 <= value <= 1799)


KINDS: dict[str, tuple[Callable[[str], bool], str]] = {
    "time": (lambda text: seconds_of(text) is not None, "a time HH:MM:SS"),
    "date": (lambda text: date_of(text) is not None, "a date YYYYMMDD"),
    "latitude": (lambda text: degrees_of(text, 90) is not None, "a latitude from -90 to 90"),
    "longitude": (lambda text: degrees_of(text, 180) is not None, "a longitude from -180 to 180"),
    "number": (lambda text: number_of(text) is not None, "a number"),
    "size": (lambda text: (-1 if (it := number_of(text)) is None else it) >= 0, "a number from 0"),
    "whole": (lambda text: whole_of(text) is not None, "a whole number from 0"),
    "count": (lambda text: bool(whole_of(text)), "a whole number from 1"),
    "route_type": (_is_route_type, "a type of routes, 0 to 7, 11, 12, or an extended one"),
    "color": (lambda text: bool(COLOR.fullmatch(text)), "a colour of six hexadecimal digits"),
    "url": (lambda text: bool(URL.fullmatch(text)), "an address that begins with http"),
    "email": (lambda text: bool(EMAIL.fullmatch(text)), "an address of mail"),
    "language": (lambda text: bool(LANGUAGE.fullmatch(text)), "a language code"),
    "currency": (lambda text: bool(CURRENCY.fullmatch(text)), "a currency code"),
    "zone": (_is_zone, "a time zone"),
}


def fault_of(kind: str, text: str) -> str | None:
    """What is wrong with a cell that is not empty, in words; none where it is good."""
    if kind.startswith("enum:"):
        least, most = map(int, kind[5:].split("-"))
        value = whole_of(text)
        return None if value is not None and least <= value <= most else f"{least} to {most}"
    if kind not in KINDS:
        return None
    is_good, wanted = KINDS[kind]
    return None if is_good(text) else wanted
