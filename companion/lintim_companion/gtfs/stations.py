"""Stations of a feed: stops that belong together are one stop of a dataset. These are the stops of
one `parent_station`, and stops of one name that lie near one another."""

from typing import NamedTuple

from ..faults import Refused
from .cells import degrees_of
from .feed import Feed
from .places import distance_km

NEAR_KM = 0.3  # stops of one name and so near are one station


class Station(NamedTuple):
    """A station: its id in the feed, its texts, where it lies, and the stops that belong to it."""

    gtfs_id: str
    code: str
    name: str
    at: tuple[float, float] | None
    stops: tuple[str, ...]


class _Stop(NamedTuple):
    code: str
    name: str
    at: tuple[float, float] | None
    parent: str


class Stations:
    """All stations, in the order of the feed, and the station of each stop by its place in it."""

    def __init__(self, feed: Feed) -> None:
        stops = _stops(feed)
        groups = _groups(stops)
        self.all: list[Station] = []
        self.of_stop: dict[str, int] = {}
        for root, members in groups.items():
            there = stops[root]
            at = there.at or next((stops[it].at for it in members if stops[it].at), None)
            for stop in members:
                self.of_stop[stop] = len(self.all)
            name = there.name or root
            self.all.append(Station(root, there.code, name, at, tuple(members)))

    def __getitem__(self, place: int) -> Station:
        return self.all[place]


def _stops(feed: Feed) -> dict[str, _Stop]:
    fields = ("stop_id", "stop_code", "stop_name", "stop_lat", "stop_lon", "parent_station")
    found: dict[str, _Stop] = {}
    for row, (stop, code, name, latitude, longitude, parent) in feed.records("stops.txt", *fields):
        north, east = degrees_of(latitude, 90), degrees_of(longitude, 180)
        if (north is None and latitude) or (east is None and longitude):
            raise Refused(f"stops.txt row {row}: {latitude!r}, {longitude!r} are no degrees")
        if not stop or stop in found:
            raise Refused(f"stops.txt row {row}: stop_id {stop!r} comes twice or is empty")
        at = None if north is None or east is None else (north, east)
        found[stop] = _Stop(code, name, at, parent)
    if not found:
        raise Refused("stops.txt has no rows")
    return found


def _groups(stops: dict[str, _Stop]) -> dict[str, list[str]]:
    """The stops of each station by the id of the station, in the order of the feed."""
    root = _roots(stops)
    by_name: dict[str, list[str]] = {}
    for stop in dict.fromkeys(root.values()):
        name = stops[stop].name.casefold()
        if not name:
            continue
        near = next((it for it in by_name.get(name, ()) if _are_near(stops, it, stop)), None)
        by_name.setdefault(name, []).append(stop)
        if near is not None:
            root[stop] = root[near]
    groups: dict[str, list[str]] = {}
    for stop in stops:
        top = root[stop]
        while root[top] != top:
            top = root[top]
        groups.setdefault(top, []).append(stop)
    return groups


def _roots(stops: dict[str, _Stop]) -> dict[str, str]:
    """The station of each stop; a boarding area belongs to a platform, and this to a station. The
    stop itself, where parents lead round in a ring. Each parent is looked at once."""
    top: dict[str, str | None] = {}  # none where parents lead into a ring
    for stop in stops:
        way: dict[str, None] = {}
        here = stop
        while here not in top and here not in way:
            way[here] = None
            if (parent := stops[here].parent) not in stops:
                top[here] = here
            else:
                here = parent
        found = top.get(here)
        top.update((it, found) for it in way if it not in top)
    return {stop: stop if it is None else it for stop, it in top.items()}


def _are_near(stops: dict[str, _Stop], a: str, b: str) -> bool:
    at = stops[a].at, stops[b].at
    return at[0] is not None and at[1] is not None and distance_km(at[0], at[1]) <= NEAR_KM
