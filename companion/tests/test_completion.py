"""Completion, asked of the shells themselves."""

import os
import pty
import select
import shutil
import subprocess
import time
from pathlib import Path

import pytest

from conftest import EXAMPLES
from lintim_companion import dataset, formats
from lintim_companion.installing import completions, program_words

TOWN = EXAMPLES / "market-town"
STOPS = {str(stop.stop_id): stop.long_name for stop in dataset.read(TOWN)[formats.STOPS]}


def needs(shell: str) -> pytest.MarkDecorator:
    return pytest.mark.skipif(not shutil.which(shell), reason=f"{shell} is missing")


def bash(folder: Path, *words: str) -> list[str]:
    """What bash offers for the last word."""
    script = (
        'source "$1"; shift; COMP_WORDS=("$@"); COMP_CWORD=$(($# - 1)); "_${1//-/_}"; '
        'printf "%s\\n" "${COMPREPLY[@]}"'
    )
    (folder / "completion").write_text(completions.bash())
    told = subprocess.run(
        ["bash", "-c", script, "bash", folder / "completion", *words],
        capture_output=True,
        text=True,
        cwd=TOWN,
        timeout=30,
    )
    assert told.stderr == ""
    return told.stdout.split()


@needs("bash")
def test_bash_offers_words_numbers_and_stops(tmp_path: Path) -> None:
    assert bash(tmp_path, "lintim", "") == [*program_words.names(), "--help", "--version"]
    assert bash(tmp_path, "lintim", "ch") == ["check", "check-waits"]
    assert bash(tmp_path, "lintim", "demo", "") == "1 2 3 4 5 6 7 8".split()
    assert bash(tmp_path, "lintim", "journey", "") == list(STOPS)
    assert bash(tmp_path, "lintim", "journey", "1", "mar") == ["2"]
    assert bash(tmp_path, "lintim", "journey", "1", "s") == ["1:Station", "4:School"]
    assert bash(tmp_path, "lintim", "journey", "1", "2", "420", "d") == ["disposed"]
    assert bash(tmp_path, "lintim", "pool", "1", "2", "3") == ["3"]
    assert "--nodes" in bash(tmp_path, "lintim-waits", "--")
    assert "basis" in bash(tmp_path, "lintim-waits", "b")


def fish(folder: Path, line: str) -> dict[str, str]:
    """What fish offers at the end of a line, with what it says of it."""
    script = "".join(f"source {folder / name}.fish\n" for name in completions.fish())
    for name, text in completions.fish().items():
        (folder / f"{name}.fish").write_text(text)
    told = subprocess.run(
        ["fish", "--no-config", "-c", f"{script}complete -C '{line}'"],
        capture_output=True,
        text=True,
        cwd=TOWN,
        timeout=30,
        env={**os.environ, "HOME": str(folder)},
    )
    assert told.stderr == ""
    rows = (row.partition("\t") for row in told.stdout.splitlines())
    return {word: says for word, _, says in rows}


@needs("fish")
def test_fish_offers_words_numbers_and_stops(tmp_path: Path) -> None:
    assert set(fish(tmp_path, "lintim ")) == set(program_words.names())
    assert set(fish(tmp_path, "lintim --")) == {"--help", "--version"}
    assert set(fish(tmp_path, "lintim demo ")) == set("12345678")
    assert fish(tmp_path, "lintim journey ") == STOPS
    assert fish(tmp_path, "lintim pool 1 2 ") == STOPS
    assert set(fish(tmp_path, "lintim journey 1 2 420 ")) == {"planned", "disposed"}
    assert "--nodes" in fish(tmp_path, "lintim-waits --")


def zsh(folder: Path, line: str) -> str:
    """What zsh shows on its screen after a tabulator."""
    (folder / "_lintim").write_text(completions.zsh())
    child, screen = pty.fork()
    if child == 0:
        os.chdir(TOWN)
        os.execvpe(
            "zsh", ["zsh", "-f", "-i"], {"PATH": os.environ["PATH"], "TERM": "dumb", "LC_ALL": "C"}
        )
    set_up = (
        f"fpath=({folder} $fpath); autoload -Uz compinit; compinit -D -u; "
        "setopt no_beep list_ambiguous auto_list; LISTMAX=0; PS1=; stty columns 500\n"
    )
    os.write(screen, set_up.encode())
    shown = _shown(screen, 1.5)
    os.write(screen, line.encode() + b"\t\t")
    shown = _shown(screen, 1.5)
    os.close(screen)
    os.waitpid(child, 0)
    return shown


def _shown(screen: int, pause: float) -> str:
    """What a terminal shows, until nothing comes for a while."""
    shown, end = b"", time.monotonic() + 20
    while time.monotonic() < end and select.select([screen], [], [], pause)[0]:
        try:
            shown += os.read(screen, 65536)
        except OSError:
            break
    return shown.decode(errors="replace")


@needs("zsh")
@pytest.mark.long
def test_zsh_offers_words_numbers_and_stops(tmp_path: Path) -> None:
    shown = zsh(tmp_path, "lintim ")
    assert all(name in shown for name in program_words.names())
    assert "lintim status" in zsh(tmp_path, "lintim stat")
    assert all(number in zsh(tmp_path, "lintim demo ") for number in "12345678")
    shown = zsh(tmp_path, "lintim journey ")
    assert all(name in shown for name in STOPS.values())
    shown = zsh(tmp_path, "lintim journey 1 2 420 ")
    assert "planned" in shown and "disposed" in shown
    assert "--nodes" in zsh(tmp_path, "lintim-waits --")
