"""The command `lintim-view`: what it draws of what is there, and how it looks."""

import re
import shutil
import subprocess
from itertools import combinations
from pathlib import Path
from typing import Any

import pytest

from commands import BIN, PYTHON, environment, run
from drawn import Page, drawn, shapes, traces
from lintim_companion import dataset, demos, formats, program
from lintim_companion.cells import File
from test_pages import DOCS
from drawn_cases import made_folder

for module in ("plotly", "matplotlib", "networkx", "scipy"):
    pytest.importorskip(module)
SECTIONS = ("network", "lines", "period", "space-time", "vehicles", "delays", "numbers")
NEEDS = {
    formats.STOPS: SECTIONS[:-1],
    formats.EDGES: ("network", "lines", "space-time"),
    formats.CONCEPT: ("lines",),
    formats.PERIODIC_EVENTS: ("period",),
    formats.TIMETABLE: ("period",),
    formats.DAY_EVENTS: ("space-time", "delays"),
    formats.TRIPS: ("space-time", "delays"),
    formats.SCHEDULE: ("vehicles", "delays"),
    formats.DISPOSITION: ("delays",),
    formats.REASONS: ("delays",),
    formats.DAY_ACTIVITIES: ("delays",),
    formats.STATISTIC: ("numbers",),
}


@pytest.fixture(scope="module")
def plan(tmp_path_factory: pytest.TempPathFactory, lintim: str) -> Path:
    """The example market-town with all plans; tests leave it as it is."""
    return made_folder(tmp_path_factory.mktemp("view") / "town", "market-town")


@pytest.fixture
def town(plan: Path, tmp_path: Path) -> Path:
    """A copy of it."""
    return Path(shutil.copytree(plan, tmp_path / "town"))


def test_two_runs_give_the_same_bytes(plan: Path, tmp_path: Path) -> None:
    made = []
    for number in ("1", "2"):
        folder = tmp_path / number
        words = ("--out", folder / "page.html", "--svg", folder / "svg", "--png", folder / "png")
        ended = run("lintim-view", plan, *words, "--lines", "4", PYTHONHASHSEED=number)
        assert (ended.status, ended.err) == (0, [])
        paths = sorted(path for path in folder.rglob("*") if path.is_file())
        made.append({path.relative_to(folder): path.read_bytes() for path in paths})
    assert made[0] == made[1]
    endings = [path.suffix for path in made[0]]
    assert endings.count(".svg") == endings.count(".png") >= 8 and endings.count(".html") == 1


def test_a_dataset_is_not_changed(plan: Path) -> None:
    before = {path: path.stat().st_mtime_ns for path in plan.rglob("*")}
    drawn(plan)
    assert {path: path.stat().st_mtime_ns for path in plan.rglob("*")} == before


@pytest.mark.parametrize("file", NEEDS, ids=[file.name for file in NEEDS])
def test_a_missing_file_leaves_its_sections_out(file: File[Any], town: Path) -> None:
    (town / file.name).unlink()
    why = drawn(town).why_left_out()
    assert tuple(why) == NEEDS[file]
    assert all(f"{file.name}" in it and "missing" in it for it in why.values())


@pytest.mark.usefixtures("lintim")
def test_a_folder_without_files(tmp_path: Path) -> None:
    (tmp_path / "empty/basis").mkdir(parents=True)
    assert tuple(drawn(tmp_path / "empty").why_left_out()) == SECTIONS


@pytest.mark.usefixtures("lintim")
def test_what_people_write_is_drawn_before_there_are_plans(tmp_path: Path) -> None:
    demos.write_demo(tmp_path / "grid", 4)
    page = drawn(tmp_path / "grid")
    assert tuple(page.why_left_out()) == SECTIONS[1:]
    assert "Coordinates say nothing" in page.text
    assert "Without widths: line-planning/Load.giv is missing" in page.text
    (figure,) = page.of("network").values()
    (stops,) = traces(figure, "mark", "stop")
    places = {at.facts[0]: (at.x, at.y) for (at,) in shapes(stops)}
    assert (
        min(abs(a[0] - b[0]) + abs(a[1] - b[1]) for a, b in combinations(places.values(), 2)) > 50
    )


def test_a_window_of_time(plan: Path) -> None:
    data, page = dataset.read(plan), drawn(plan, "--from", "07:30", "--to", "7:33")
    disposed = dict(data[formats.DISPOSITION].rows)
    wanted = {
        number
        for number, trip in enumerate(data[formats.TRIPS], 1)
        if trip.start_time <= 453 and max(trip.end_time, disposed[trip.end_id]) >= 450
    }
    assert trips_of(page) == wanted and 0 < len(wanted) < len(data[formats.TRIPS])
    figure = [*page.of("space-time").values()][0]
    assert figure["layout"]["xaxis"]["range"] == [450, 453]


def trips_of(page: Page) -> set[int]:
    """The trips whose planned times are drawn."""
    return {
        shape[0].facts[1]
        for figure in page.of("space-time").values()
        for layer in traces(figure, "stroke", "event")
        if "disposed" in layer["meta"]["facts"]
        for shape in shapes(layer)
    }


def test_some_lines(plan: Path) -> None:
    page = drawn(plan, "--lines", "2,5")
    of_lines = [trace["meta"]["lines"] for it in page.figures.values() for trace in it["data"]]
    ways = [it for key in ("delays/delays/0",) for it in page.figures[key]["data"]]
    assert {line for lines in of_lines for line in lines} - {1} == {2, 5}
    assert any(1 in trace["meta"]["lines"] for trace in ways)  # from where line 2 is late
    assert 'data-line="2"' in page.text and 'data-line="1"' not in page.text
    stands = [
        shape[0].facts
        for layer in traces(page.of("vehicles")["vehicles"], "stroke", "vehicle", 2)
        for shape in shapes(layer)
    ]
    assert stands == [(1, 2), (3, 2)]  # those before a trip that is drawn


def test_a_path_of_stops(plan: Path) -> None:
    """All trips over two edges, in both directions, each event once."""
    data, page = dataset.read(plan), drawn(plan, "--path", "1,2,4", "3,2")
    assert [*page.of("space-time")][:2] == ["path-1-2-4", "path-3-2"]
    events = data[formats.DAY_EVENTS].rows
    for key, path in (("path-1-2-4", [1, 2, 4]), ("path-3-2", [3, 2])):
        steps = {frozenset(two) for two in zip(path, path[1:])}
        wanted = []
        for event, then in zip(events, events[1:]):
            if event.type == "departure" and frozenset((event.stop_id, then.stop_id)) in steps:
                wanted += [event.event_id, then.event_id]
        found = [
            vertex.facts[0]
            for layer in traces(page.of("space-time")[key], "stroke", "event")
            if "disposed" in layer["meta"]["facts"]
            for shape in shapes(layer)
            for vertex in shape
        ]
        assert sorted(found) == sorted(wanted) and found


def test_two_folders_side_by_side(plan: Path, town: Path, tmp_path: Path) -> None:
    with open(town / "basis/Config.cnf", "a") as file:
        file.write("\nDM_latest_time; 520\ndm_wait; all\n")
    assert program.run(town, "make").status == 0
    ended = run("lintim-view", plan, town, "--out", tmp_path / "both.html")
    assert (ended.status, ended.err) == (0, [])
    page = Page(tmp_path / "both.html")
    assert [*page.of("space-time", 0)] == [*page.of("space-time", 1)]
    for key, figure in page.of("space-time", 0).items():
        other = page.of("space-time", 1)[key]
        assert figure["layout"]["xaxis"]["range"] == other["layout"]["xaxis"]["range"]
    rows = {row[0]: row[1:] for row in page.table("differences")}
    values = [dict(dataset.read(it)[formats.STATISTIC].rows) for it in (plan, town)]
    trips = [it["ro_trips"] // 10**6 for it in values]
    assert int(rows["delay-management/Trips.giv"][1]) >= trips[1] - trips[0] > 0
    assert "line-planning/Line-Concept.lin" not in rows
    assert rows[formats.STATISTIC.name][2].startswith("key dm_missed_changes, ")
    numbers = {row[0]: row[1:] for row in page.table("numbers")}
    assert numbers["ro_trips"][:3] == [str(trips[0]), str(trips[1]), str(trips[1] - trips[0])]


def test_the_same_folder_twice(plan: Path, tmp_path: Path) -> None:
    ended = run("lintim-view", plan, plan, "--out", tmp_path / "both.html")
    assert ended.status == 0
    why = Page(tmp_path / "both.html").why_left_out()
    assert why == {"differences": "both have the same rows in all files"}


def test_the_script_beside_the_page(plan: Path, tmp_path: Path) -> None:
    out = tmp_path / "new/page.html"
    ended = run("lintim-view", plan, "--out", out, "--beside")
    assert ended.status == 0 and out.stat().st_size < 300_000
    script = (out.parent / "plotly.js").read_text()
    assert "plotly.js" in script[:100] and '<script src="plotly.js"' in out.read_text()
    within = drawn(plan).text
    assert script in within and "src=" not in within.replace(script, "")


def test_names_as_people_write_them(town: Path) -> None:
    """Signs that mean something to a page or to plotly are shown as they are."""
    text = (town / formats.STOPS.name).read_text()
    name = '<b>S\u00fcd</b> & "Ost" $x_1$ </script>'
    (town / formats.STOPS.name).write_text(text.replace("Station", name))
    page = drawn(town)
    (figure,) = page.of("network").values()
    (stops,) = traces(figure, "mark", "stop")
    assert shapes(stops)[0][0].facts == (1, name)
    assert stops["text"][0].startswith("&lt;b&gt;S\u00fcd&lt;/b&gt; &amp;")
    assert "<b>S" not in page.text
    pictures = town.parent / "svg"
    assert run("lintim-view", town, "--out", town.parent / "x.html", "--svg", pictures).status == 0
    assert "$x_1$" in (pictures / "network.svg").read_text()


def test_the_example_of_the_help(town: Path) -> None:
    ended = subprocess.run(
        [*PYTHON, str(BIN / "lintim-view"), *"lintim-view . --out town.html".split()[1:]],
        cwd=town,
        env=environment(),
        capture_output=True,
    )
    assert (ended.returncode, ended.stderr) == (0, b"") and (town / "town.html").exists()


def test_figures_are_good_for_plotly(plan: Path) -> None:
    """Each trace and layout has the attributes and values that plotly knows."""
    import plotly.graph_objects

    for figure in drawn(plan, "--path", "1,2,4").figures.values():
        made = plotly.graph_objects.Figure({"data": figure["data"], "layout": figure["layout"]})
        assert len(made.data) == len(figure["data"])


def test_the_page_of_pictures_shows_what_the_command_draws(plan: Path, tmp_path: Path) -> None:
    """The files and the output on docs/PICTURES.md are those of the example."""
    out = tmp_path / "town.html"
    words = ("--out", out, "--svg", tmp_path, "--path", "1,2,4,5")
    ended = run("lintim-view", plan, *words)
    assert (ended.status, ended.err) == (0, [])
    page = (DOCS / "PICTURES.md").read_text()
    shown = re.findall(r"^    (view: .*)$", page, re.M)
    assert shown[:-1] == ended.out[: len(shown) - 1]
    size = re.compile(r"view: written to \S+, [\d.]+ MB")
    assert size.fullmatch(shown[-1]) and size.fullmatch(ended.out[len(shown) - 1])
    names = re.findall(r"\]\(pictures/(.*?)\)", page)
    assert sorted(names) == sorted(path.name for path in (DOCS / "pictures").iterdir())
    if matplotlib_version() == "3.6.3":
        for name in names:
            assert (DOCS / "pictures" / name).read_bytes() == (tmp_path / name).read_bytes(), name


def matplotlib_version() -> str:
    """Another version may draw other bytes."""
    import matplotlib

    return str(matplotlib.__version__)
