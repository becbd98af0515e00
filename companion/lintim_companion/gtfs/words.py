"""Words of the command line: dates, boxes and places, with a fault in one line."""

from datetime import date
from typing import NamedTuple

from ..faults import WrongWords
from .cells import date_of, degrees_of, number_of


class Box(NamedTuple):
    """A part of the earth between two latitudes and two longitudes, in degrees."""

    south: float
    west: float
    north: float
    east: float

    def has(self, latitude: float, longitude: float) -> bool:
        """Whether a place lies in it."""
        return self.south <= latitude <= self.north and self.west <= longitude <= self.east

    def word(self) -> str:
        """The box as a word of the command line."""
        return ",".join(f"{it:.4f}" for it in self)


def date_word(name: str, text: str) -> date:
    """A date as 20260105 or 2026-01-05."""
    found = date_of(text.replace("-", ""))
    if found is None:
        raise WrongWords(f"{name} {text!r} is no date as 20260105")
    return found


def box_word(text: str) -> Box:
    """A box as SOUTH,WEST,NORTH,EAST in degrees."""
    parts = text.split(",")
    south, west, north, east = (
        (degrees_of(part, most) for part, most in zip(parts, (90, 180, 90, 180)))
        if len(parts) == 4
        else (None, None, None, None)
    )
    if south is None or west is None or north is None or east is None:
        raise WrongWords(f"--area {text!r} is no box SOUTH,WEST,NORTH,EAST in degrees")
    if south > north or west > east:
        raise WrongWords(f"--area {text!r}: south is above north, or west above east")
    return Box(south, west, north, east)


def place_word(text: str) -> tuple[float, float]:
    """A place as LAT,LON in degrees."""
    north, _, east = text.partition(",")
    found = degrees_of(north, 89), degrees_of(east, 180)
    if found[0] is None or found[1] is None:
        raise WrongWords(f"--place {text!r} is no place LAT,LON in degrees")
    return found[0], found[1]


def scale_word(text: str) -> float:
    """The metres of a unit, more than 0."""
    found = number_of(text)
    if found is None or not 0 < found <= 10_000_000:
        raise WrongWords(f"--scale {text!r} is no number of metres above 0")
    return found
