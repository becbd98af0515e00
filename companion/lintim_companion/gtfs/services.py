"""Which services of a feed run on a date, by `calendar.txt` and `calendar_dates.txt`."""

from collections import Counter
from collections.abc import Iterator
from datetime import date, timedelta
from typing import NamedTuple

from ..faults import Refused
from .cells import date_of
from .feed import Feed

DAYS = tuple("monday tuesday wednesday thursday friday saturday sunday".split())
MOST_DAYS = 800  # dates of a service that are looked at to find a busy one
MOST_DATES = 2_000  # and of all services


class Weekly(NamedTuple):
    """A service that runs on some days of the week between two dates."""

    service: str
    days: tuple[bool, ...]
    first: date
    last: date

    def runs(self, on: date) -> bool:
        """Whether it runs on a date, by its week."""
        return self.first <= on <= self.last and self.days[on.weekday()]


class Calendar:
    """The services of a feed."""

    def __init__(self, feed: Feed) -> None:
        self.weekly = list(_weekly(feed))
        self.added: dict[date, set[str]] = {}
        self.removed: dict[date, set[str]] = {}
        fields = ("service_id", "date", "exception_type")
        for row, (service, day, kind) in feed.records("calendar_dates.txt", *fields):
            on = date_of(day)
            if on is None or kind not in ("1", "2"):
                says = f"{day!r} is no date" if on is None else f"exception_type {kind!r}"
                raise Refused(f"calendar_dates.txt row {row}: {says}")
            (self.added if kind == "1" else self.removed).setdefault(on, set()).add(service)

    def on(self, day: date) -> set[str]:
        """The services that run on a date."""
        by_week = {it.service for it in self.weekly if it.runs(day)}
        return (by_week | self.added.get(day, set())) - self.removed.get(day, set())

    def busiest(self, trips: Counter[str]) -> tuple[date, int] | None:
        """The first date with the most trips, by the number of trips of each service."""
        days = set(self.added)
        for it in self.weekly:
            count = min((it.last - it.first).days + 1, MOST_DAYS)
            days.update(it.first + timedelta(at) for at in range(count))
        counts = ((sum(trips[it] for it in self.on(day)), day) for day in sorted(days)[:MOST_DATES])
        best: tuple[date, int] | None = None
        for count, day in counts:
            if count and (best is None or count > best[1]):
                best = day, count
        return best


def _weekly(feed: Feed) -> Iterator[Weekly]:
    fields = ("service_id", "start_date", "end_date", *DAYS)
    for row, (service, begin, end, *days) in feed.records("calendar.txt", *fields):
        first, last = date_of(begin), date_of(end)
        if first is None or last is None:
            raise Refused(f"calendar.txt row {row}: {begin!r} to {end!r} are no two dates")
        if any(day not in ("0", "1") for day in days):
            raise Refused(f"calendar.txt row {row}: a day of the week is neither 0 nor 1")
        yield Weekly(service, tuple(day == "1" for day in days), first, last)
