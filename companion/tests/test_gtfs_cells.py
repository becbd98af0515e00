"""Cells, words and distances of feeds."""

import datetime
import math

import pytest
from hypothesis import given
from hypothesis import strategies as some

from lintim_companion.clocks import clock, minute_word
from lintim_companion.gtfs.cells import KINDS, date_of, degrees_of, fault_of
from lintim_companion.gtfs.cells import number_of, seconds_of, time_cell, whole_of
from lintim_companion.gtfs.periods import Window
from lintim_companion.gtfs.places import KM_PER_DEGREE, distance_km
from lintim_companion.faults import WrongWords
from lintim_companion.gtfs.words import box_word, date_word, place_word

LATITUDES, LONGITUDES = some.floats(-89, 89), some.floats(-180, 180)
PLACES = some.tuples(LATITUDES, LONGITUDES)


@given(some.integers(0, 999 * 60 + 59))
def test_a_minute_is_read_as_it_is_written(minute: int) -> None:
    assert seconds_of(time_cell(minute)) == 60 * minute
    if minute <= 10_080:
        assert minute_word("--from", str(minute)) == minute
        assert minute_word("--from", clock(minute)) == minute


@given(some.dates())
def test_a_date_is_read_as_it_is_written(day: datetime.date) -> None:
    text = day.isoformat()
    assert date_of(text.replace("-", "")) == day == date_word("--date", text)


@given(some.text(max_size=12))
def test_any_text_is_a_cell_or_not(text: str) -> None:
    for kind in (*KINDS, "enum:0-2", "id"):
        fault_of(kind, text)
    for word in (box_word, place_word):
        try:
            word(text)
        except WrongWords as why:
            assert "\n" not in str(why)


@pytest.mark.parametrize("text", ["24:10:00", "5:03:07", "125:59:59"])
def test_times(text: str) -> None:
    hours, minutes, seconds = map(int, text.split(":"))
    assert seconds_of(f" {text} ") == 3600 * hours + 60 * minutes + seconds


@pytest.mark.parametrize(
    "text", ["", "24:60:00", "1:2:3", "12:00", "-1:00:00", "1200:00:00", "٣:00:00"]
)
def test_no_times(text: str) -> None:
    assert seconds_of(text) is None


def test_numbers() -> None:
    assert number_of("-1.5e3") == -1500 and number_of(".5") == 0.5 and number_of("5.") == 5
    assert all(number_of(text) is None for text in ("", "nan", "inf", "1,5", "1e999", "٣"))
    assert whole_of("007") == 7
    assert all(whole_of(text) is None for text in ("", "-1", "1.0", "٣", "9" * 30))
    assert degrees_of("90", 90) == 90 and degrees_of("90.1", 90) is None


@given(PLACES, PLACES)
def test_distances(a: tuple[float, float], b: tuple[float, float]) -> None:
    there, back = distance_km(a, b), distance_km(b, a)
    assert math.isclose(there, back, abs_tol=1e-6) and 0 <= there <= 180 * KM_PER_DEGREE + 1e-6
    assert distance_km(a, a) == 0
    assert there >= abs(a[0] - b[0]) * KM_PER_DEGREE - 1e-6


@given(some.integers(0, 2000), some.integers(0, 500), some.integers(1, 120), some.integers(0, 119))
def test_starts_of_a_run_in_a_window(first: int, length: int, period: int, minute: int) -> None:
    window = Window(first, first + length, period)
    wanted = [at for at in range(first, first + length + 1) if (at - minute) % period == 0]
    assert window.starts(minute) == wanted and len(wanted) <= window.periods
