"""The wheel of the package, and what builds an image of it: made offline, and tried."""

import os
import re
import shutil
import subprocess
import tomllib
import zipfile
from pathlib import Path

import checkouts
import pytest
from checkouts import Checkout

from lintim_companion.faults import Refused
from lintim_companion.installing.__main__ import packages
from lintim_companion.manners import see_package
from lintim_companion.registry import COMMANDS
from lintim_companion.tools import WHEEL
from lintim_companion.version import VERSION

HOME = checkouts.HOME
OFFLINE = {"PATH": "/usr/bin:/bin", "PIP_NO_INDEX": "1", "http_proxy": "http://127.0.0.1:1"}
OFFLINE["https_proxy"] = OFFLINE["http_proxy"]
NAME = f"lintim_companion-{VERSION}-py3-none-manylinux_2_34_x86_64.whl"
pytestmark = [
    pytest.mark.usefixtures("lintim", "tools"),
    pytest.mark.skipif(not (HOME / "dist").exists(), reason="this is no checkout"),
    pytest.mark.skipif(os.uname().machine != "x86_64", reason="the program is for x86_64"),
]


@pytest.fixture(scope="module")
def tools() -> None:
    for package in WHEEL:
        try:
            see_package(package)
        except Refused as why:
            pytest.skip(str(why))


def call(*words: object, where: Path, **more: str) -> "subprocess.CompletedProcess[str]":
    said = [str(word) for word in words]
    return subprocess.run(
        said, cwd=where, env=OFFLINE | more, capture_output=True, text=True, timeout=300
    )


def with_companion(it: Checkout) -> Checkout:
    """The same checkout with the package and what makes a wheel of it."""
    left_out = shutil.ignore_patterns("tests", "__pycache__", ".hypothesis")
    for name in ("companion", "packaging"):
        shutil.copytree(HOME / name, it.top / name, ignore=left_out, dirs_exist_ok=True)
    return it


@pytest.fixture(scope="module")
def made(tmp_path_factory: pytest.TempPathFactory) -> Checkout:
    return with_companion(checkouts.make(tmp_path_factory.mktemp("made")))


@pytest.fixture
def checkout(made: Checkout, tmp_path: Path) -> Checkout:
    return checkouts.copy(made, tmp_path)


@pytest.fixture(scope="module")
def environment(made: Checkout, tmp_path_factory: pytest.TempPathFactory) -> Path:
    """An environment of Python into which `pip install ./companion` has put it."""
    folder = tmp_path_factory.mktemp("environment") / "it"
    words = ("-P", "-m", "venv", "--system-site-packages", folder)
    ended = call("/usr/bin/python3", *words, where=made.top)
    assert ended.returncode == 0, ended.stderr
    ended = call(folder / "bin/pip", "install", "./companion", where=made.top)
    assert ended.returncode == 0, ended.stdout + ended.stderr
    return folder


def test_pip_installs_the_commands_and_the_program(environment: Path, tmp_path: Path) -> None:
    names = {path.name for path in (environment / "bin").glob("lintim*")}
    assert names == {"lintim", *(it.name for it in COMMANDS)}
    found = call(environment / "bin/lintim", "demo", "1", where=tmp_path)
    assert (found.returncode, found.stdout.splitlines()[-1]) == (0, "done")
    said = (environment / "share/doc/lintim/PROVED").read_text()
    assert "program: lintim\n" in said
    for command in COMMANDS:
        ended = call(environment / "bin" / command.name, "--help", where=tmp_path)
        assert (ended.returncode, ended.stderr) == (0, "")
        assert ended.stdout.startswith(f"usage: {command.name} ")


def test_an_installed_command_finds_its_program(environment: Path, tmp_path: Path) -> None:
    shutil.copytree(HOME / "examples/market-town", tmp_path / "town")
    ended = call(environment / "bin/lintim", "make", where=tmp_path / "town")
    assert ended.returncode == 0
    ended = call(environment / "bin/lintim-why", ".", where=tmp_path / "town")
    assert ended.returncode == 0 and "is not found" not in ended.stdout + ended.stderr
    ended = call(environment / "bin/lintim-view", ".", where=tmp_path / "town")
    assert ended.returncode == 0, ended.stderr
    assert (tmp_path / "town/view.html").exists()


def test_no_module_of_the_folder_where_one_stands_is_run(environment: Path, tmp_path: Path) -> None:
    for name in ("argparse", "shutil", "csv"):
        (tmp_path / f"{name}.py").write_text("open('ran', 'w')\n")
    for path in (":", ".", "/nowhere:."):
        ended = call(environment / "bin/lintim-waits", "--help", where=tmp_path, PYTHONPATH=path)
        assert (ended.returncode, ended.stderr) == (0, "")
    assert not (tmp_path / "ran").exists()


@pytest.mark.long
def test_what_was_installed_goes_away(made: Checkout, tmp_path: Path) -> None:
    folder = tmp_path / "it"
    call("/usr/bin/python3", "-P", "-m", "venv", folder, where=tmp_path)
    pip = folder / "bin/pip"
    assert call(made.top / "packaging/wheel", where=tmp_path).returncode == 0
    assert call(pip, "install", tmp_path / NAME, where=tmp_path).returncode == 0
    assert call(pip, "uninstall", "-y", "lintim-companion", where=tmp_path).returncode == 0
    assert not [path for path in folder.rglob("*") if "lintim" in path.name and path.is_file()]


def test_a_wheel_is_the_same_each_time(checkout: Checkout, tmp_path: Path) -> None:
    script = checkout.top / "packaging/wheel"
    for name in ("one", "two"):
        ended = call(script, "--out", tmp_path / name, where=tmp_path)
        assert (ended.returncode, ended.stderr) == (0, "")
        assert ended.stdout.startswith(f"wheel: {tmp_path / name / NAME} is made; ")
    assert (tmp_path / "one" / NAME).read_bytes() == (tmp_path / "two" / NAME).read_bytes()
    with zipfile.ZipFile(tmp_path / "one" / NAME) as wheel:
        program = wheel.read(f"lintim_companion-{VERSION}.data/data/bin/lintim")
        names = wheel.namelist()
    assert program == (checkout.top / "dist/lintim").read_bytes()
    assert "lintim_companion/pictures/page.js" in names
    assert not [name for name in names if "tests" in name or name.endswith(".pyc")]


def test_what_is_no_proved_program_goes_into_no_wheel(checkout: Checkout, tmp_path: Path) -> None:
    script = checkout.top / "packaging/wheel"
    for path, says in (
        (checkout.source, "it was proved of other sources than stand here"),
        (checkout.top / "dist/lintim", "its sha256 is not the one that dist/PROVED has"),
    ):
        path.write_text("another\n")
        ended = call(script, where=tmp_path)
        assert ended.returncode == 1
        assert ended.stderr == f"wheel: dist/lintim may not go into it, since {says}\n"
    (tmp_path / "it").mkdir()
    pip = ("/usr/bin/python3", "-P", "-m", "pip", "wheel", "--no-deps", "-w", tmp_path / "it")
    ended = call(*pip, checkout.top / "companion", where=tmp_path)
    assert ended.returncode == 1 and "is not the program of which" in ended.stdout + ended.stderr
    (checkout.top / "dist/lintim").unlink()
    assert call(script, where=tmp_path).returncode == 0
    assert (tmp_path / f"lintim_companion-{VERSION}-py3-none-any.whl").exists()
    (tmp_path / "file").touch()
    for words, says in (
        (("--out", tmp_path / "file"), "file cannot be written"),
        (("--nothing",), "its words are"),
        (("--out",), "its words are"),
    ):
        ended = call(script, *words, where=tmp_path)
        assert ended.returncode == 1 and says in ended.stderr
        assert len(ended.stderr.splitlines()) == 1


def test_each_command_is_an_entry_point() -> None:
    table = tomllib.loads((HOME / "companion/pyproject.toml").read_text())["project"]
    assert table["scripts"] == {it.name: "lintim_companion.entry:main" for it in COMMANDS}


@pytest.mark.skipif(not shutil.which("dpkg-deb"), reason="dpkg-deb is missing")
def test_a_folder_for_an_image(made: Checkout, tmp_path: Path) -> None:
    program = made.top / "dist/lintim"
    words = ("--out", tmp_path / "it", "--program", program)
    ended = call(HOME / "packaging/container", *words, where=tmp_path)
    assert (ended.returncode, ended.stderr) == (0, "")
    text = (tmp_path / "it/Containerfile").read_text()
    copied = re.findall(r"^COPY (\S+) ", text, re.M)
    assert copied == [f"lintim_{VERSION}_amd64.deb"] and (tmp_path / "it" / copied[0]).exists()
    assert all(f" {name}" in text for name in packages())
    ended = call(HOME / "packaging/container", "--out", where=tmp_path)
    assert ended.returncode == 1 and ended.stderr.startswith("container: its words are")
    builder = shutil.which("podman") or shutil.which("docker")
    if builder is None or call(builder, "info", where=tmp_path).returncode:
        pytest.skip("neither podman nor docker runs here")
    if call(builder, "image", "inspect", "debian:bookworm-slim", where=tmp_path).returncode:
        pytest.skip(f"{builder} has no image debian:bookworm-slim")
    image = ("-t", "lintim-of-a-test", tmp_path / "it")
    ended = call(builder, "build", "-f", tmp_path / "it/Containerfile", *image, where=tmp_path)
    assert ended.returncode == 0, ended.stderr
    ended = call(builder, "run", "--rm", "lintim-of-a-test", "demo", "1", where=tmp_path)
    assert (ended.returncode, ended.stdout.splitlines()[-1]) == (0, "done")
