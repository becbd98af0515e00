"""What a guess of demand is made of: files that people name, with semicolons as a dataset has them."""

from pathlib import Path
from typing import Annotated, Any, NamedTuple

from ..cells import File, Fixed, R
from ..faults import Refused
from ..formats import MAX_HAND_BYTES, Name, StopId
from ..tables import Table, parsed


class People(NamedTuple):
    """How many people live and work round a stop."""

    stop: Annotated[StopId, "the stop"]
    people: Annotated[int, Fixed(0, 10**9, "people"), "the people round it"]


class Count(NamedTuple):
    """How many customers were counted at a stop."""

    stop: Annotated[StopId, "the stop"]
    boardings: Annotated[int, Fixed(0, 10**9, "customers"), "who got in"]
    alightings: Annotated[int, Fixed(0, 10**9, "customers"), "who got out"]


class Zone(NamedTuple):
    """A part of a zone that belongs to a stop."""

    zone: Annotated[Name, "the zone"]
    stop: Annotated[StopId, "the stop"]
    share: Annotated[int, Fixed(0, 10**9), "its part, among those of the zone"]


class ZoneTrip(NamedTuple):
    """How many customers go from a zone to another one."""

    from_zone: Annotated[Name, "where they start"]
    to_zone: Annotated[Name, "where they want to go"]
    customers: Annotated[int, Fixed(0, 10**9, "customers"), "how many there are"]


def read(path: Path, row: type[R]) -> Table[R]:
    """The rows of a file that people name."""
    try:
        with open(path, "rb") as file:
            data = file.read(MAX_HAND_BYTES + 1)
    except OSError as why:
        raise Refused(f"{path} cannot be read: {why.strerror}") from None
    if len(data) > MAX_HAND_BYTES:
        raise Refused(f"{path} has more than {MAX_HAND_BYTES >> 20} MiB")
    return parsed(File(str(path), row), data)


def by_stop(table: Table[Any], places: dict[int, int]) -> dict[int, Any]:
    """The rows by the places of their stops, each of which comes once."""
    found: dict[int, Any] = {}
    for number, row in zip(table.numbers, table):
        place = place_of(table, number, row.stop, places)
        if place in found:
            raise Refused(f"{table.file.name} row {number}: stop {row.stop} comes twice")
        found[place] = row
    return found


def place_of(table: Table[Any], number: int, stop: int, places: dict[int, int]) -> int:
    """The place of a stop that a row names."""
    if stop not in places:
        raise Refused(f"{table.file.name} row {number}: unknown stop ({stop})")
    return places[stop]
