"""The page of `lintim-view` in a browser: chromium, without a network, led by selenium."""

import resource
import shutil
import time
from collections.abc import Iterator
from pathlib import Path
from typing import Any

import pytest

from commands import made, run
from drawn import drawn
from large_day import write_large_day
from lintim_companion import dataset, formats
from drawn_cases import made_folder

pytest.importorskip("plotly")
webdriver = pytest.importorskip("selenium.webdriver")
builder = pytest.importorskip("selenium.webdriver.common.actions.action_builder")
PROGRAMS = [shutil.which(name) for name in ("chromium", "chromedriver")]
pytestmark = [
    pytest.mark.long,
    pytest.mark.skipif(None in PROGRAMS, reason="apt install chromium chromium-driver"),
]
SECTIONS = ["network", "lines", "period", "space-time", "vehicles", "delays", "numbers"]
WORDS = ("--headless=new", "--no-sandbox", "--disable-dev-shm-usage", "--window-size=1300,1000")

DRAWN = """
    const done = arguments[arguments.length - 1];
    const place = document.querySelector(arguments[0]);
    place.scrollIntoView({block: "center"});
    const wait = () => place.dataset.state === "drawn" ? done(true) : setTimeout(wait, 20);
    wait();
"""
AT = """
    const place = document.querySelector(arguments[0]), trace = place.data[arguments[1]];
    const layout = place._fullLayout, box = place.getBoundingClientRect();
    const at = (axis, value) => axis._offset + axis.l2p(value);
    return [box.left + at(layout.xaxis, trace.x[arguments[2]]),
            box.top + at(layout.yaxis, trace.y[arguments[2]])];
"""
SHOWN = """
    return [...document.querySelectorAll(".picture[data-state=drawn]")].flatMap(
      (place) => place._fullData.filter((it) => it.visible === true).map((it) => it.meta.lines));
"""
FRAMES = """
    window.frames_ = []; window.over = false; let last = performance.now();
    const next = () => { const now = performance.now(); window.frames_.push(now - last);
      last = now; if (!window.over) requestAnimationFrame(next); };
    requestAnimationFrame(next);
"""


class Browser:
    """A page in a browser."""

    def __init__(self) -> None:
        options = webdriver.ChromeOptions()
        for word in WORDS:
            options.add_argument(word)
        options.set_capability("goog:loggingPrefs", {"browser": "ALL"})
        options.binary_location = PROGRAMS[0]
        service = webdriver.chrome.service.Service(PROGRAMS[1])
        self.driver = webdriver.Chrome(service=service, options=options)
        self.driver.set_script_timeout(60)

    def script(self, script: str, *words: Any) -> Any:
        """What a script answers."""
        return self.driver.execute_script(script, *words)

    def open(self, path: Path) -> None:
        """Opens a file."""
        self.driver.get(path.resolve().as_uri())

    def draw(self, section: str) -> str:
        """Goes to the first picture of a section, and waits until it is drawn."""
        place = f"#{section} figure:not([hidden]) .picture"
        assert self.driver.execute_async_script(DRAWN, place)
        return place

    def hover(self, place: str, trace: int, vertex: int) -> str:
        """What pointing at a vertex tells."""
        x, y = self.script(AT, place, trace, vertex)
        actions = builder.ActionBuilder(self.driver)
        actions.pointer_action.move_to_location(5, 5).move_to_location(round(x), round(y))
        actions.perform()
        deadline = time.monotonic() + 5
        while time.monotonic() < deadline:
            found = self.script(
                "return [...document.querySelectorAll(arguments[0] + ' .hovertext')]"
                ".map((it) => [...it.querySelectorAll('tspan')].map((t) => t.textContent)"
                ".join('|') || it.textContent)",
                place,
            )
            if found:
                return str(found[0])
            time.sleep(0.05)
        raise AssertionError("pointing tells nothing")

    def click(self, selector: str) -> None:
        """Clicks on something."""
        self.script("document.querySelector(arguments[0]).click()", selector)
        time.sleep(0.5)

    def log(self) -> list[Any]:
        """What the console has said."""
        return list(self.driver.get_log("browser"))


@pytest.fixture(scope="module")
def browser() -> Iterator[Browser]:
    """One browser for all tests."""
    made_one = Browser()
    yield made_one
    made_one.driver.quit()


@pytest.fixture(scope="module")
def town(tmp_path_factory: pytest.TempPathFactory, lintim: str) -> Path:
    """The example market-town with all plans, and its page beside it."""
    folder = made_folder(tmp_path_factory.mktemp("browser") / "town", "market-town")
    drawn(folder)
    return folder


@pytest.fixture
def page(browser: Browser, town: Path) -> Browser:
    """The page of the town, with all pictures drawn that are shown at first."""
    browser.log()
    browser.open(town.with_suffix(".html"))
    for section in SECTIONS[:-1]:
        browser.draw(section)
    return browser


def test_each_section_is_there_and_the_console_silent(page: Browser) -> None:
    ids = page.script("return [...document.querySelectorAll('section')].map((it) => it.id)")
    assert ids == SECTIONS
    for section in SECTIONS[:-1]:
        shapes = f"#{section} .main-svg .trace path, #{section} .main-svg .trace text"
        assert page.script("return document.querySelectorAll(arguments[0]).length", shapes) > 3
    assert page.script("return document.querySelectorAll('#numbers tr').length") == 15
    assert page.script("return performance.getEntriesByType('resource').length") == 0
    assert page.log() == []


def test_a_line_that_is_switched_off_is_gone(page: Browser, town: Path) -> None:
    trips = [row for row in dataset.read(town)[formats.SCHEDULE] if row.type == "TRIP"]
    bars = "return document.querySelectorAll('#vehicles .bars .point').length"
    assert page.script(bars) == len(trips)
    assert any(2 in lines for lines in page.script(SHOWN))
    page.click(".chip[data-line='2']")
    assert not any(2 in lines for lines in page.script(SHOWN))
    assert any(1 in lines for lines in page.script(SHOWN))
    assert page.script(bars) == sum(row.line != 2 for row in trips)
    page.script(
        "const it = document.querySelector('#space-time select'); it.value = 'line-2';"
        "it.dispatchEvent(new Event('change'))"
    )
    page.draw("space-time")
    assert not any(2 in lines for lines in page.script(SHOWN))
    page.click(".chip[data-line='2']")
    assert any(2 in lines for lines in page.script(SHOWN))
    assert page.script(bars) == len(trips) and page.log() == []


def test_pointing_tells_the_id(page: Browser) -> None:
    place = page.draw("space-time")
    data = page.script("return document.querySelector(arguments[0]).data", place)
    planned = next(at for at, it in enumerate(data) if "disposed" in it["meta"]["facts"])
    ids = data[planned]["customdata"]
    for vertex in (0, 2, 4):
        told = page.hover(place, planned, vertex)
        assert f"event {ids[vertex][0]}" in told and f"trip: {ids[vertex][1]}" in told
    place = page.draw("vehicles")
    data = page.script("return document.querySelector(arguments[0]).data", place)
    empty = next(at for at, it in enumerate(data) if it["name"] == "empty rides")
    assert "vehicle 1" in page.hover(place, empty, 0)
    place = page.draw("delays")
    data = page.script("return document.querySelector(arguments[0]).data", place)
    star = next(at for at, it in enumerate(data) if it["name"] == "delays from outside")
    told = page.hover(place, star, 0)
    assert "id 3" in told or "event 3" in told
    assert page.log() == []


def test_another_picture_can_be_chosen(page: Browser) -> None:
    page.script(
        "const it = document.querySelector('#period select'); it.value = 'stop-2';"
        "it.dispatchEvent(new Event('change'))"
    )
    place = page.draw("period")
    assert page.script("return document.querySelector(arguments[0]).dataset.picture", place) == (
        "period/stop-2/0"
    )
    shown = (
        "return [...document.querySelectorAll('#period figure')].filter((it) => !it.hidden).length"
    )
    assert page.script(shown) == 1 and page.log() == []


def test_dark_and_light(page: Browser) -> None:
    colour = "return getComputedStyle(document.body).backgroundColor"
    text = "return document.querySelector('#vehicles .picture').layout.font.color"
    looks = set()
    for _ in range(2):
        looks.add((page.script(colour), page.script(text)))
        page.click("#theme")
    assert looks == {("rgb(255, 255, 255)", "#1c2126"), ("rgb(20, 24, 29)", "#e6e9ec")}
    assert page.log() == []


def test_two_folders_in_a_browser(browser: Browser, town: Path) -> None:
    out = town.parent / "both.html"
    assert run("lintim-view", town, town, "--out", out).status == 0
    browser.open(out)
    for section in SECTIONS[:-1]:
        browser.draw(section)
    assert browser.script("return document.querySelectorAll('#vehicles .side').length") == 2
    assert browser.log() == []


def test_the_largest_day(browser: Browser, tmp_path: Path, lintim: str) -> None:
    """2,000 trips and 100,000 events: the page within 10 s of a processor and 20 MB, and moved
    smoothly. What a clock says is printed; its limits leave room for a machine that others use."""
    write_large_day(tmp_path / "large")
    folder = made(tmp_path / "large")
    data = dataset.read(folder)
    assert (len(data[formats.TRIPS]), len(data[formats.DAY_EVENTS])) == (2_000, 100_000)
    begun, before = time.monotonic(), processor_seconds()
    page = drawn(folder)
    took, busy = time.monotonic() - begun, processor_seconds() - before
    size = len(page.text.encode()) / 1e6
    print(f"largest day: page in {took:.1f} s ({busy:.1f} s of a processor), {size:.1f} MB")
    assert busy < 10 and size < 20
    begun = time.monotonic()
    browser.open(folder.with_suffix(".html"))
    browser.draw("network")
    print(f"largest day: opened in {time.monotonic() - begun:.1f} s")
    assert time.monotonic() - begun < 40
    for section in SECTIONS[:-1]:
        begun = time.monotonic()
        place = browser.draw(section)
        took = time.monotonic() - begun
        frames = dragged(browser, place)
        middle = frames[len(frames) // 2]
        print(f"largest day: {section} in {took:.1f} s, a frame in {middle:.0f} ms")
        assert took < 20 and middle < 1_000
    assert browser.log() == []


def processor_seconds() -> float:
    """What the processes that have ended here took of a processor."""
    used = resource.getrusage(resource.RUSAGE_CHILDREN)
    return used.ru_utime + used.ru_stime


def dragged(browser: Browser, place: str) -> list[float]:
    """The milliseconds of frames, the shortest first, while a picture is moved by the mouse."""
    browser.script(
        "Plotly.relayout(document.querySelector(arguments[0]), {dragmode: 'pan'})", place
    )
    time.sleep(1)
    area = browser.driver.find_element("css selector", f"{place} .nsewdrag")
    actions = webdriver.ActionChains(browser.driver, duration=30)
    actions.move_to_element(area).click_and_hold()
    for _ in range(30):
        actions.move_by_offset(-4, 0)
    browser.script(FRAMES)
    actions.perform()
    frames = browser.script("window.over = true; return window.frames_")
    webdriver.ActionChains(browser.driver).release().perform()
    return sorted(frames)
