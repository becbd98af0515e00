"""What lines are called: of a feed that comes back, of a dataset of one's own, in pictures."""

import zipfile
from pathlib import Path

import pytest
from hypothesis import given, settings
from hypothesis import strategies as some

from gtfs_cases import make, ran, run
from lintim_companion import dataset, formats
from lintim_companion.commands.view import drawn
from lintim_companion.faults import RowRefused
from lintim_companion.formats import LineName
from lintim_companion.line_names import LineNames, text_colour
from lintim_companion.manners import Talk
from lintim_companion.pictures.plan import Choice
from made_city import HOUR, ON, write
from made_feeds import small

TOWN = ("--place", "50.0,8.0", "--scale", "1000")
ROW = LineName(1, "12", "Station - Harbour", "C4002A", "tram", "City Trams", "Europe/Berlin")


def routes_of(feed: Path) -> list[list[str]]:
    """The rows of `routes.txt`."""
    text = zipfile.ZipFile(feed).read("routes.txt").decode()
    return [row.split(",") for row in text.splitlines()]


@pytest.mark.usefixtures("lintim")
def test_names_colours_and_modes_come_back(tmp_path: Path) -> None:
    city = small()
    city.rows["agency.txt"][0].update(agency_name="City Trams", agency_timezone="Europe/Berlin")
    city.route("T", 0)
    city.rows["routes.txt"][-1].update(route_short_name="T4", route_color="c4002a")
    city.both_ways("T", "ade", range(6 * HOUR, 9 * HOUR, 1800))
    folder, back = tmp_path / "city", tmp_path / "back.zip"
    ran("import", write(tmp_path / "feed.zip", city.files()), folder, "--date", ON)
    names = LineNames(dataset.read(folder))
    line = next(it for it, row in names.rows.items() if row.short_name == "T4")
    assert names.called(line) == "tram T4" and names.colour(line) == "#c4002a"
    make(folder)
    ran("export", folder, back)
    head, *rows = routes_of(back)
    row = dict(zip(head, next(row for row in rows if row[0] == str(line))))
    assert (row["route_short_name"], row["route_type"], row["route_color"]) == ("T4", "0", "C4002A")
    assert row["route_text_color"] == "FFFFFF"
    agency = zipfile.ZipFile(back).read("agency.txt").decode().splitlines()[1]
    assert agency == "1,City Trams,http://example.org,Europe/Berlin"
    ran("export", folder, back, "--route-type", 2)
    assert {row[4] for row in routes_of(back)[1:]} == {"2"}


@pytest.mark.usefixtures("lintim")
def test_pictures_use_names(made_town: Path) -> None:
    dataset.write(made_town, formats.LINE_NAMES, [ROW._replace(short_name="<b>&$x$")])
    _, sides, _, lines = drawn([dataset.read(made_town)], Choice(), Talk("lintim-view"))
    assert lines[1] == ("tram <b>&$x$", "#c4002a") and lines[2][0] == "line 2"
    layers = [it for part in sides[0].sections for of in part.pictures for it in of.layers]
    assert {it.colour for it in layers if it.lines == (1,)} >= {"#c4002a"}
    assert any(it.name.startswith("tram <b>&$x$, ") for it in layers)


@pytest.fixture
def made_town(tmp_path: Path) -> Path:
    """A copy of the town with all of its stages made."""
    from lintim_companion import hand, program

    hand.copy_hand_files(program.CHECKOUT / "examples/market-town", tmp_path / "town")
    make(tmp_path / "town")
    return tmp_path / "town"


@pytest.mark.parametrize(
    "rows, says",
    [([ROW, ROW], "row 3: repeated id"), ([ROW._replace(colour="red")], "row 2: column 4 is no")],
)
def test_faults_are_one_line(rows: list[LineName], says: str, made_town: Path) -> None:
    dataset.write(made_town, formats.LINE_NAMES, rows)
    with pytest.raises(RowRefused, match=says):
        LineNames(dataset.read(made_town))
    status, _, fault = run("export", made_town, made_town / "feed.zip", *TOWN)
    assert status == 1 and says in fault and "Line-Name.giv" in fault


def test_lines_that_are_called_alike_have_their_ids(tmp_path: Path) -> None:
    rows = [ROW, ROW._replace(line_id=2), ROW._replace(line_id=3, short_name="", mode=900)]
    (tmp_path / "basis").mkdir()
    dataset.write(tmp_path, formats.LINE_NAMES, rows)
    names = LineNames(dataset.read(tmp_path))
    assert [names.called(it) for it in range(1, 5)] == [
        *("tram 12 (line 1)", "tram 12 (line 2)"),
        *("line 3", "line 4"),
    ]


@given(some.integers(0, 0xFFFFFF))
@settings(deadline=None)
def test_texts_can_be_read_on_every_colour(colour: int) -> None:
    """The contrast of black or white on any colour is at least 4.5 to 1."""
    parts = [(colour >> shift & 255) / 255 for shift in (16, 8, 0)]
    linear = [it / 12.92 if it <= 0.04045 else ((it + 0.055) / 1.055) ** 2.4 for it in parts]
    light = sum(share * it for share, it in zip((0.2126, 0.7152, 0.0722), linear))
    is_black = text_colour(f"{colour:06X}") == "000000"
    assert ((light + 0.05) / 0.05 if is_black else 1.05 / (light + 0.05)) >= 4.5
