"""The manners of all commands: words, help, one line for each fault, progress, and good ends.

A command is a function `run(words, talk)` in the module that `registry` names. It says what it
finds by `talk.say`, writes files by `talk.write`, and gives its exit status. A fault is raised as
`faults.Refused`. Where the user or the system stops it, what was written stays, and counts.
"""

import argparse
import contextlib
import gc
import importlib
import importlib.util
import os
import re
import shutil
import signal
import sys
import time
from collections.abc import Callable, Sequence
from pathlib import Path
from typing import Any, NoReturn, TextIO

from . import dataset, files, program, surroundings
from .cells import File, R
from .faults import NoProgram, Refused, Stopped, WrongWords
from .registry import Command, Package, Word, command

EVERY = 3.0  # seconds between two lines of progress
LONGEST = 5_000  # characters of a line
STEERING = re.compile(r"[\x00-\x1f\x7f-\x9f\u2028-\u202e\u2066-\u2069]")
TOGETHER = 0.5  # seconds within which two signals are one
_put_off: list[Stopped] = []  # a stop that came where nothing can be raised


class Parser(argparse.ArgumentParser):
    """A parser that tells a fault in one line."""

    def error(self, message: str) -> NoReturn:
        """Ends the command with the line of a fault, and the status 2."""
        self.exit(2, f"{self.prog}: {message}; see {self.prog} --help\n")


class Deadline:
    """A moment after which no more time is left."""

    def __init__(self, seconds: float, clock: Callable[[], float] = time.monotonic) -> None:
        self.clock, self.seconds = clock, seconds
        self.begun = clock()
        self.end = self.begun + seconds

    def left(self) -> float:
        """How many seconds are left, 0 where it is over."""
        return max(0.0, self.end - self.clock())

    def spent(self) -> float:
        """How many seconds have gone by."""
        return self.clock() - self.begun

    def is_over(self) -> bool:
        """Whether no time is left."""
        return self.left() == 0


class Progress:
    """Lines on the standard error each few seconds, none where that is no terminal."""

    def __init__(
        self, name: str, to: TextIO | None, clock: Callable[[], float] = time.monotonic
    ) -> None:
        self.name, self.clock = name, clock
        self.to = to if to is not None and to.isatty() else None
        self.begun = self.told = clock()

    def tell(self, says: Callable[[], str] | str) -> None:
        """Tells how far a search is, where it is time for a line."""
        if _put_off:
            raise _put_off.pop()
        now = self.clock()
        if self.to is not None and now - self.told >= EVERY:
            self.told = now
            text = says if isinstance(says, str) else says()
            try:
                print(f"{self.name}: {now - self.begun:.0f} s: {text}", file=self.to, flush=True)
            except OSError:
                self.to = None


def searched(found: str | None, bound: str | None, gap: float | None) -> str:
    """How far a search is, in words: what it found, what it knows, and how far these are apart."""
    parts = [f"found {found}" if found else "nothing found yet"]
    if bound is not None:
        parts.append(f"bound {bound}")
    if gap is not None:
        parts.append(f"gap {gap:.1%}")
    return ", ".join(parts)


def shown(line: str) -> str:
    """A line as a screen shows it: signs that steer a terminal are told by their numbers, and what
    is far too long is cut."""
    if len(line) > LONGEST:
        line = f"{line[:LONGEST]} .. and {len(line) - LONGEST} characters more"
    return line if line.isprintable() else STEERING.sub(lambda it: repr(it[0])[1:-1], line)


class Talk:
    """What a command says, and what it has written."""

    def __init__(self, name: str) -> None:
        self.name = name
        self.progress = Progress(name, sys.stderr)
        self.wrote: list[str] = []
        self.lost: OSError | None = None

    def say(self, line: str) -> None:
        """Prints a line. Where nobody reads on, the command goes on in silence."""
        if self.lost is None:
            try:
                print(shown(line), flush=True)
            except OSError as why:
                self.lost = why
                _close_output()

    def write(self, folder: Path, file: File[R], rows: list[R]) -> None:
        """Writes a plan, and remembers that it is there."""
        with files.undisturbed():
            dataset.write(folder, file, rows)
            self.wrote.append(file.name)

    def stands(self, file: File[Any]) -> None:
        """Remembers a plan that stood there before and is as good."""
        self.wrote.append(file.name)

    def fault(self, why: object) -> int:
        """Tells in one line why the command ends, and gives the exit status for that."""
        line = shown(" ".join(str(why).split()))
        try:
            print(f"{self.name}: {line}", file=sys.stderr, flush=True)
        except OSError:
            pass
        return 1

    def left(self) -> str:
        """What is there of a plan where a command ends early."""
        return f"what was found is in {' and '.join(dict.fromkeys(self.wrote))}"

    def ended(self, status: int) -> int:
        """The exit status in the end. Where lines are lost that somebody wanted to keep, it is 1,
        but for a command that has written what it is for."""
        if self.lost is None or isinstance(self.lost, BrokenPipeError):
            return status
        lost = self.fault(f"the report could not be written: {self.lost.strerror}")
        return status if self.wrote else lost

    def stopped(self, by: int) -> int:
        """The exit status of a command that was stopped: 0 where a plan stands."""
        if self.wrote:
            self.fault(f"stopped; {self.left()}")
            return 0
        self.fault("stopped before anything was found")
        return 128 + by


def _close_output() -> None:
    """Lets what is still printed go nowhere, so that nothing fails at the end either."""
    nowhere = os.open(os.devnull, os.O_WRONLY)
    os.dup2(nowhere, sys.stdout.fileno())
    os.close(nowhere)


def _open_streams() -> None:
    """Lets streams that are closed lead nowhere, so that no file takes their numbers."""
    while (handle := os.open(os.devnull, os.O_RDWR)) <= 2:
        pass
    os.close(handle)
    for number, name in ((1, "stdout"), (2, "stderr")):
        if getattr(sys, name) is None:
            setattr(sys, name, open(number, "w", closefd=False))


def _close_streams() -> None:
    """Lets what cannot be printed any more go nowhere, so that Python does not end with a status of
    its own, which is 120."""
    for number, stream in ((1, sys.stdout), (2, sys.stderr)):
        try:
            stream.flush()
        except (OSError, ValueError, AttributeError):
            with contextlib.suppress(OSError):
                nowhere = os.open(os.devnull, os.O_WRONLY)
                os.dup2(nowhere, number)
                os.close(nowhere)


def main(name: str, words: Sequence[str] | None = None) -> int:
    """Runs a command, and gives its exit status."""
    try:
        _open_streams()
        return _main(name, words)
    except OSError as why:  # not even a stream can be opened
        return Talk(name).fault(f"{why.filename or 'a stream'}: {why.strerror or why}")
    finally:
        _close_streams()


def _main(name: str, words: Sequence[str] | None) -> int:
    surroundings.settle()
    for stream in (sys.stdout, sys.stderr):
        if hasattr(stream, "reconfigure"):
            stream.reconfigure(errors="replace")
    gc.set_threshold(200_000, 20, 50)  # tables are many small objects, of which none is in a ring
    talk = Talk(name)
    sys.unraisablehook = _unraisable
    try:
        for number in (signal.SIGINT, signal.SIGTERM):
            signal.signal(number, _stop)
        return talk.ended(_run(command(name), words, talk))
    except WrongWords as why:
        talk.fault(f"{why}; see {name} --help")
        return 2
    except Refused as why:
        return talk.fault(f"{why}; {talk.left()}" if talk.wrote else why)
    except Stopped as by:
        return talk.stopped(by.signal)
    except MemoryError:
        pass  # what holds it goes with the exception, before anything is said
    except OSError as why:
        return talk.fault(f"{why.filename or 'the folder where you are'}: {why.strerror or why}")
    except Exception as fault:
        if os.environ.get("LINTIM_TRACE"):
            raise
        kind = type(fault).__name__
        return talk.fault(f"a fault of this command, {kind}: {fault} (LINTIM_TRACE=1 tells more)")
    return talk.fault("out of memory")


def _run(it: Command, words: Sequence[str] | None, talk: Talk) -> int:
    parsed = parser(it).parse_args(words)
    for package in it.packages:
        see_package(package)
    if (seconds := getattr(parsed, "seconds", None)) is not None:
        program.give(seconds)
    try:
        with files.undisturbed():  # a stop in the middle looks to numpy like a broken package
            module = importlib.import_module(f"lintim_companion.{it.module}")
    except ImportError as why:
        raise NoProgram(f"{why}: {_install(it.packages)}") from None
    status: int = module.run(parsed, talk)
    return status


def _stop(number: int, _: object) -> NoReturn:
    """Ends the command in good order; a second signal ends it at once. One that comes together with
    the first is none: `timeout` sends two, to the command and to its group."""
    begun = time.monotonic()

    def again(number: int, _: object) -> None:
        if time.monotonic() - begun > TOGETHER:
            signal.signal(number, signal.SIG_DFL)
            os.kill(os.getpid(), number)

    signal.signal(number, again)
    raise Stopped(number)


def _unraisable(what: "sys.UnraisableHookArgs") -> None:
    """Takes note of a stop that came in the middle of tidying up; it is raised at the next line of
    progress."""
    if isinstance(what.exc_value, Stopped):
        _put_off.append(what.exc_value)


def see_package(package: Package) -> None:
    """Sees that a package is there."""
    if package.module and not _is_there(package.module):
        raise NoProgram(f"the package {package.module} is missing: {_install((package,))}")
    if package.program and shutil.which(package.program) is None:
        raise NoProgram(f"the program {package.program} is missing: {_install((package,))}")


def _is_there(module: str) -> bool:
    """Whether a module can be imported, as far as can be seen without doing it."""
    try:
        return importlib.util.find_spec(module) is not None
    except ImportError:
        return False


def _install(packages: tuple[Package, ...]) -> str:
    """How the packages are installed; they belong to the Python of the system."""
    line = f"apt install {' '.join(package.apt for package in packages)}"
    if os.path.realpath(sys.executable) == os.path.realpath("/usr/bin/python3"):
        return line
    return f"{line}, for /usr/bin/python3 and not for {sys.executable}"


def parser(it: Command) -> Parser:
    """The parser of a command, from its row in the table."""
    made = Parser(
        prog=it.name,
        description=f"{it.says}\n\n{it.about}",
        epilog=_epilog(it),
        formatter_class=argparse.RawDescriptionHelpFormatter,
        allow_abbrev=False,
    )
    for word in it.words:
        made.add_argument(word.name, **_settings_of(word))
    return made


def _settings_of(word: Word) -> dict[str, Any]:
    """What argparse has to know of a word."""
    if word.kind == "switch":
        return {"help": word.says, "action": "store_true"}
    says = word.says if word.default is None else f"{word.says} (%(default)s)"
    found: dict[str, Any] = {"help": says, "metavar": word.name.lstrip("-").upper()}
    if word.is_option:
        found["default"] = word.default
    if word.many:
        found["nargs"] = "*"
    elif word.default is not None and not word.is_option:
        found.update(nargs="?", default=word.default)
    if word.kind == "whole":
        found["type"] = lambda text: _whole(word, text)
        found["metavar"] = "N" if word.is_option else found["metavar"]
    elif word.kind in ("folder", "file"):
        found["type"] = Path
    return found


def _whole(word: Word, text: str) -> int:
    """A whole number within the range of a word."""
    is_whole = text.isascii() and text.isdigit() and len(text) < 19
    most = word.greatest if word.greatest is not None else 10**18
    if not is_whole or not word.least <= int(text) <= most:
        to = f" to {most}" if word.greatest is not None else " on"
        raise argparse.ArgumentTypeError(f"{text!r} is no whole number from {word.least}{to}")
    return int(text)


def _epilog(it: Command) -> str:
    """What stands at the end of the help."""
    parts = [f"reads: {it.reads}", f"writes: {it.writes}"]
    if it.packages:
        parts.append(f"needs: apt install {' '.join(package.apt for package in it.packages)}")
    parts += ["", "example:", f"  {it.example}", "", "exit status:"]
    parts += [f"  {status:<4} {says}" for status, says in it.statuses]
    return "\n".join(parts)
