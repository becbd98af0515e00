"""Nothing that lies in a dataset is run or read as settings, whatever its name is."""

import os
import re
import shutil
import subprocess
from pathlib import Path

import pytest

import traps
from commands import BIN, PYTHON, environment, made
from conftest import EXAMPLES, Folders
from lintim_companion import program
from lintim_companion.faults import Refused
from lintim_companion.manners import see_package
from lintim_companion.registry import MATPLOTLIB, NETWORKX, PLOTLY

pytestmark = pytest.mark.usefixtures("lintim")
HOME = program.CHECKOUT
RUNS = (
    "lintim-concept . --seconds 10",
    "lintim-concept . --model both --points 2 --table front.csv --picture front.svg",
    "lintim-concept . --model time --seconds 10",
    "lintim-timetable . --seconds 10",
    "lintim-timetable . --for-passengers --seconds 3",
    "lintim-schedule .",
    "lintim-waits . 10 --seconds 10",
    "lintim-passengers . --disposed",
    "lintim-view . --svg svg --png png --out page.html",
    "lintim-gtfs export . feed.zip --place 53,10",
    "lintim-gtfs check feed.zip",
    "lintim-gtfs import feed.zip made --date 20260105",
    "lintim-convert out . ../other",
    "lintim-demand gravity made",
    "lintim-why .",
)
WRITTEN = (
    "svg",
    "png",
    "page.html",
    "front.csv",
    "front.svg",
    "feed.zip",
    "made",
    "pinned",
    "waiting",
    "passengers",
)
Answer = tuple[int, str, str]


def careless() -> dict[str, str]:
    """Surroundings in which the folder where one stands is on the paths, as it is after
    `PATH=$PATH:` or `PYTHONPATH=:` alike."""
    found = environment(PYTHONPATH=":.", PYTHONWARNINGS="error")
    place = os.path.dirname(found.pop("LINTIM"))
    return found | {"PATH": f":.:{place}:{os.environ['PATH']}:"}


def run(words: str, folder: Path, *begin: str | Path) -> Answer:
    """Runs a command as a user does, in a dataset."""
    said = [*map(str, begin[:-1]), str(Path(begin[-1]) / words.split()[0]), *words.split()[1:]]
    ended = subprocess.run(
        said, cwd=folder, env=careless(), capture_output=True, text=True, timeout=300
    )
    told = re.sub(r"\d+\.\d s", "S s", ended.stdout).replace(str(folder), "FOLDER")
    return ended.returncode, told, ended.stderr


@pytest.fixture(scope="module")
def town(tmp_path_factory: pytest.TempPathFactory) -> Path:
    """A dataset after `lintim make`."""
    for package in (PLOTLY, MATPLOTLIB, NETWORKX):
        try:
            see_package(package)
        except Refused as why:
            pytest.skip(str(why))
    folder = tmp_path_factory.mktemp("plain") / "town"
    return made(Path(shutil.copytree(EXAMPLES / "market-town", folder)))


@pytest.fixture(scope="module")
def answers(town: Path) -> dict[str, Answer]:
    """What each command answers where no trap lies, with the names of the modules it loads on the
    standard error."""
    return {words: run(words, town, *PYTHON, "-X", "importtime", BIN) for words in RUNS}


@pytest.fixture(scope="module")
def names(answers: dict[str, Answer]) -> set[str]:
    """The modules that all commands and their workers load."""
    found = traps.loaded("".join(err for _, _, err in answers.values()))
    worker = HOME / "companion/lintim_companion/highs_worker.py"
    said = [*PYTHON, "-X", "importtime", str(worker), "no pipe"]
    found |= traps.loaded(subprocess.run(said, capture_output=True, text=True).stderr)
    assert len(found) > 150 and {"ctypes", "pickle", "numpy", "scipy", "matplotlib"} <= found
    return found


@pytest.fixture(params=("checkout", pytest.param("installed", marks=pytest.mark.long)))
def bin(request: pytest.FixtureRequest, tmp_path: Path) -> Path:
    """Where the commands stand."""
    if request.param == "checkout":
        return BIN
    words = [HOME / "install", "--prefix", tmp_path / "pre", "--program", program.find()]
    if not (HOME / "install").exists():
        pytest.skip("this is no checkout")
    subprocess.run(list(map(str, words)), check=True, capture_output=True)
    return tmp_path / "pre/bin"


def test_nothing_in_a_dataset_is_run_or_read_as_settings(
    bin: Path, town: Path, answers: dict[str, Answer], names: set[str], tmp_path: Path
) -> None:
    folder, ran, log = tmp_path / "town", tmp_path / "ran", tmp_path / "log"
    shutil.copytree(town, folder, ignore=shutil.ignore_patterns(*WRITTEN))
    wired = traps.set_traps(folder, names, ran)
    assert len(wired) > 180
    for words in RUNS:
        answer = run(words, folder, *traps.watched(log), bin)
        assert answer[::2] == (answers[words][0], ""), (words, answer)
        assert answer[1] == answers[words][1] or "--for-passengers" in words, words  # by the clock
        if log.exists():
            found = traps.touched(log, folder)
            read = ("basis/Config.cnf", "feed.zip", "made/basis/Edge.giv")
            assert found & {folder / name for name in read}, "strace saw nothing"
            assert not found & wired, words
        assert not ran.exists(), (words, ran.read_text())
        assert answer[0] == ("why" in words), words
    for path in sorted(town.rglob("*.svg")):
        assert (folder / path.relative_to(town)).read_bytes() == path.read_bytes(), path


def test_a_pool_is_made_beside_traps(
    bin: Path, town: Path, names: set[str], tmp_path: Path
) -> None:
    folder, ran, log = tmp_path / "town", tmp_path / "ran", tmp_path / "log"
    shutil.copytree(town, folder, ignore=shutil.ignore_patterns(*WRITTEN))
    wired = traps.set_traps(folder, names, ran)
    answer = run("lintim-pool . --replace --lines 5", folder, *traps.watched(log), bin)
    assert answer[::2] == (0, "") and "5 lines, by both" in answer[1]
    assert not ran.exists()
    assert not log.exists() or not traps.touched(log, folder) & wired


def test_traps_are_found(tmp_path: Path) -> None:
    """A Python that takes modules from the current folder runs into them, and strace sees it."""
    wired = traps.set_traps(tmp_path, ["ctypes"], tmp_path / "ran")
    said = ["/usr/bin/python3", "-c", "import ctypes"]
    said = [*traps.watched(tmp_path / "log"), *said]
    subprocess.run(said, cwd=tmp_path, check=True, env={"PATH": os.environ["PATH"]})
    assert (tmp_path / "ran").read_text() == f"{tmp_path}/ctypes.py\n"
    if shutil.which("strace"):
        assert traps.touched(tmp_path / "log", tmp_path) & wired == {tmp_path / "ctypes.py"}


def test_a_module_and_settings_of_pictures_are_left_alone(example: Folders) -> None:
    """The same in plain surroundings, with the files that did harm."""
    folder = made(example("three-stops"))
    plain = Path(shutil.copytree(folder, folder.parent / "plain"))
    ran = folder.parent / "ran"
    traps.set_traps(folder, ("ctypes", "pickle", "numpy", "scipy"), ran)
    for words in ("lintim-concept .", "lintim-view . --svg svg --out page.html"):
        for place in (plain, folder):
            said = [str(BIN / words.split()[0]), *words.split()[1:]]
            subprocess.run(said, cwd=place, env=environment(), check=True, capture_output=True)
    assert not ran.exists(), ran.read_text()
    for path in sorted(plain.rglob("*.svg")):
        assert (folder / path.relative_to(plain)).read_bytes() == path.read_bytes(), path


def test_matplotlib_comes_with_the_settings_of_the_package_alone() -> None:
    package = HOME / "companion/lintim_companion"
    imports = re.compile(r"^ *(?:import|from) matplotlib", re.M)
    found = {path.name for path in package.rglob("*.py") if imports.search(path.read_text())}
    assert found == {"drawing.py", "paper.py"}  # in paper.py for types alone
    assert len(imports.findall((package / "pictures/paper.py").read_text())) == 1
