"""What all tests share: the program, the examples, and the datasets of `lintim demo`."""

import os
import shutil
import tempfile
from collections.abc import Callable
from pathlib import Path

import pytest
from hypothesis import HealthCheck, settings

from lintim_companion import demos, manners, program, registry
from lintim_companion.faults import NoProgram

# The same cases each time, whatever the clock says, and nothing kept beside the tests.
KEPT = os.path.join(tempfile.gettempdir(), "lintim-companion-hypothesis")
os.environ.setdefault("HYPOTHESIS_STORAGE_DIRECTORY", KEPT)
settings.register_profile(
    "steady",
    deadline=None,
    derandomize=True,
    database=None,
    suppress_health_check=[HealthCheck.function_scoped_fixture, HealthCheck.too_slow],
)
settings.load_profile("steady")

# `companion/check` says where these are left out.
try:
    for package in (registry.SCIPY, registry.CADICAL):
        manners.see_package(package)
except NoProgram:
    names = (
        "course",
        "manners",
        "passengers",
        "plans",
        "stops",
        "studies",
        "taken",
        "waits",
        "why",
        "why_folders",
        "why_hostile",
        "why_plans",
    )
    collect_ignore = [f"test_{name}.py" for name in names]

EXAMPLES = program.CHECKOUT / "examples"
Folders = Callable[[str], Path]


def pytest_collection_modifyitems(items: list[pytest.Item]) -> None:
    """Marks as quick what is not marked as long."""
    for item in items:
        if item.get_closest_marker("long") is None:
            item.add_marker(pytest.mark.quick)


@pytest.fixture(scope="session")
def lintim() -> str:
    """The path of the program; tests that need it are left out where it is not built."""
    try:
        return program.find()
    except NoProgram as why:
        pytest.skip(str(why))


@pytest.fixture
def example(tmp_path: Path) -> Folders:
    """Makes a folder with an example, or with the dataset of a demo as `demo 5`."""

    def make(name: str) -> Path:
        folder = tmp_path / name.replace(" ", "")
        if name.startswith("demo "):
            demos.write_demo(folder, int(name.removeprefix("demo ")))
            return folder
        for hand in ("basis", "delay-management"):
            for path in sorted((EXAMPLES / name / hand).glob("*")):
                if hand == "basis" and path.name != "Pool-Cost.giv" or "delays" in path.name:
                    (folder / hand).mkdir(parents=True, exist_ok=True)
                    shutil.copy(path, folder / hand / path.name)
        return folder

    return make
