"""`lintim-view`: pictures of a plan, as a page and as files for print."""

import os
import re
from argparse import Namespace
from pathlib import Path

from .. import dataset, files
from ..clocks import minute_word
from ..dataset import Dataset
from ..faults import Refused, WrongWords
from ..manners import Talk, see_package
from ..pictures.numbers import difference_section, number_section
from ..pictures.page import Side, page_of
from ..pictures.plan import Choice, Plan, lines_of
from ..pictures.scene import Section, named
from ..pictures.sections import sections_of
from ..registry import MATPLOTLIB

IDS = re.compile(r"\d{1,9}(,\d{1,9})*", re.ASCII)
SCRIPT = "plotly.js"


def run(words: Namespace, talk: Talk) -> int:
    """Writes the page, and then the files for print."""
    choice = choice_of(words)
    folders = [words.folder, *(words.other or ())]
    if len(folders) > 2:
        raise WrongWords(f"{len(folders)} folders are named, wanted one or two")
    if words.svg or words.png:
        see_package(MATPLOTLIB)
    out = files.place_of(words.out)
    papers = [(it, end) for it, end in ((words.svg, "svg"), (words.png, "png")) if it]
    places = [files.folder_of(folder) for folder, _ in papers]
    first, sides, last, lines = drawn([dataset.read(it) for it in folders], choice, talk)
    from plotly.offline import get_plotlyjs

    talk.progress.tell("writing the page")
    script: str = get_plotlyjs()
    page = page_of(first, sides, last, lines, None if words.beside else script)
    if words.beside:
        written(out.parent / SCRIPT, script.encode(), talk)
    written(out, page, talk)
    talk.say(f"view: written to {words.out}, {len(page) / 1e6:.1f} MB")
    for place, (_, ending) in zip(places, papers):
        on_paper(sides, place, ending, talk)
    return 0


def choice_of(words: Namespace) -> Choice:
    """What is to be drawn, by the words of the command."""
    given = ("--from", words.__dict__["from"]), ("--to", words.to)
    times = [None if text is None else minute_word(name, text) for name, text in given]
    if times[0] is not None and times[1] is not None and times[0] >= times[1]:
        raise WrongWords("--from has to be before --to")
    paths = [ids_of("--path", text) for text in words.path or ()]
    for path in paths:
        if len(path) < 2 or len({*path}) < len(path):
            raise WrongWords("--path wants two or more stops, and none of them twice")
    lines = frozenset(ids_of("--lines", words.lines)) if words.lines is not None else frozenset()
    return Choice(times[0], times[1], lines, tuple(paths))


def ids_of(name: str, text: str) -> tuple[int, ...]:
    """The ids of a word as 1,2,5."""
    if not IDS.fullmatch(text):
        raise WrongWords(f"{name} {text!r} are no ids as 1,2,5")
    return tuple(map(int, text.split(",")))


def drawn(
    datasets: list[Dataset], choice: Choice, talk: Talk
) -> tuple[list[Section], list[Side], list[Section], dict[int, tuple[str, str]]]:
    """What differs, the sections of each dataset, the numbers, and the names and colours of lines."""
    every = sorted({line for data in datasets for line in lines_of(data)})
    for line in sorted(choice.lines):
        if line not in every:
            there = ", ".join(map(str, every)) or "none"
            raise Refused(f"--lines: line {line} is not driven; those driven are: {there}")
    plans = [Plan(data, choice, every) for data in datasets]
    for plan in plans:
        for stop in {stop for path in choice.paths for stop in path}:
            if stop not in plan.names:
                raise Refused(f"--path: there is no stop {stop}")
    sides = []
    for plan, name in zip(plans, names_of([data.folder for data in datasets])):
        talk.progress.tell(f"drawing {name}")
        sides.append(Side(name, sections_of(plan)))
    two = len(plans) == 2
    apart = [difference_section(plans[0], plans[1])] if two else []
    numbers = number_section(plans[0], plans[1] if two else None)
    for side in sides:
        for section in side.sections:
            told(section, f"{side.name}: " if two else "", talk)
    for section in [*apart, numbers]:
        told(section, "", talk)
    shown = [line for line in every if choice.has_line(line)]
    of = plans[0]
    return apart, sides, [numbers], {line: (of.called(line), of.colour(line)) for line in shown}


def told(section: Section, of: str, talk: Talk) -> None:
    """Says what a section has, or why it is left out."""
    count = len(section.pictures)
    has = f"{count} picture{'s' * (count != 1)}" if count else f"{len(section.table)} rows"
    says = f"left out: {section.left_out}" if section.left_out else has
    talk.say(f"view: {of}{section.title}: {says}")


def names_of(folders: list[Path]) -> list[str]:
    """What each dataset is called: the name of its folder, or its path where two have one name."""
    paths = [os.fsencode(folder).decode(errors="replace") for folder in folders]
    names = [os.fsencode(it.resolve().name).decode(errors="replace") for it in folders]
    names = [named(name or path) for name, path in zip(names, paths)]
    return names if len({*names}) == len(names) else [*map(named, paths)]


def written(path: Path, data: bytes, talk: Talk) -> None:
    """Writes a file, and remembers that it is there."""
    files.write_bytes(path.parent, path.name, data)
    talk.wrote.append(path.name)


def on_paper(sides: list[Side], folder: Path, ending: str, talk: Talk) -> None:
    """Writes each picture as a file of its own."""
    from ..pictures.paper import lacking, paper_of

    count = 0
    lacks: dict[str, None] = {}
    for number, side in enumerate(sides, 1):
        for section in side.sections:
            for picture in section.pictures:
                name = "-".join(dict.fromkeys((section.key, picture.key)))
                name = f"{number}-{name}" if len(sides) > 1 else name
                talk.progress.tell(f"drawing {name}.{ending}")
                written(folder / f"{name}.{ending}", paper_of(picture, ending), talk)
                lacks |= dict.fromkeys(lacking(picture))
                count += 1
    talk.say(f"view: written {count} pictures to {folder}, as {ending}")
    if lacks and ending == "png":
        signs = f"{len(lacks)} signs of names, as {next(iter(lacks))}"
        talk.say(f"view: {signs}, are not in the font of png, where a box stands for each")
