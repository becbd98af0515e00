"""What the pages show and no walk runs or compares, with the reason. One table."""

from dataclasses import dataclass, replace

from .blocks import Block

PICTURE = "a drawing"
FORM = "shows the form of a text"


@dataclass(frozen=True)
class Mark:
    """A command of a page, or a text that it shows, named by how it, or its first line, begins. What
    is `long` takes minutes, or depends on how fast the machine is, and runs with `--all`."""

    page: str
    begins: str
    why: str
    long: bool = False


CLOCK = "may take a minute, and what is found then may depend on the machine"
TOWN = "8 Mill --5-- 1 Station"
MARKS = (
    Mark("README.md", "./test", "runs for minutes; CONTRIBUTING has when to run it"),
    Mark("companion/README.md", "apt install", "changes the machine"),
    Mark("companion/README.md", "from lintim_companion", "Python; test_pages runs it"),
    Mark("companion/README.md", "data = ", "Python; test_pages runs it"),
    Mark("companion/README.md", "companion/check", "runs this"),
    Mark("companion/README.md", "./test", "changes the machine; test_test_script tries it"),
    Mark("companion/README.md", "companion/pages", "runs this"),
    Mark("docs/ARCHITECTURE.md", "", "a map, and questions to git about the code of the checkout"),
    Mark("docs/CITY.md", "lintim-timetable", CLOCK, long=True),
    Mark("docs/CITY.md", "echo 'pin_timetable", CLOCK, long=True),
    Mark("docs/CITY.md", "timetable: before", CLOCK),
    Mark("docs/EXAMPLE.md", TOWN, PICTURE),
    Mark("docs/FIRST-POOL.md", TOWN, PICTURE),
    Mark("docs/FIRST-POOL.md", "lintim-timetable", CLOCK, long=True),
    Mark("docs/FIRST-POOL.md", "echo 'pin_timetable", CLOCK, long=True),
    Mark("docs/GOOD-TIMETABLES.md", "lintim-timetable", CLOCK, long=True),
    Mark("docs/GOOD-TIMETABLES.md", "echo 'pin_timetable", CLOCK, long=True),
    Mark("docs/GOOD-TIMETABLES.md", "timetable: before", CLOCK, long=True),
    Mark("docs/GTFS.md", "gtfs: what would fit", "of a feed of a city; test_gtfs_import has one"),
    Mark("docs/GTFS.md", "error: stop_times.txt", "of a damaged feed; test_gtfs_check has it"),
    Mark("docs/INSTALL.md", "./install", "test_install tries it"),
    Mark("docs/INSTALL.md", "./lintim --prove", "proves for minutes; test_dist tries it"),
    Mark("docs/INSTALL.md", "python3 -m venv", "test_wheel does it"),
    Mark("docs/INSTALL.md", "ENV/bin/pip", "test_wheel does it"),
    Mark("docs/INSTALL.md", "fpath=", FORM),
    Mark(
        "docs/STUDIES.md", "", "wants Snakemake, and takes minutes; test_studies runs a small one"
    ),
    Mark("docs/WHY.md", "(lintim-why)", CLOCK, long=True),
    Mark("docs/WHY.md", "lintim make ends with: no solution: timetable", CLOCK, long=True),
    Mark("docs/STAGES-LINES.md", "lpool_costs_fixed +", FORM),
)
# Lines of reports in prose that no run of their page prints, with where they are tried.
SPANS = {("README.md", "no solution: concept"): "docs/FIRST-POOL.md"}


def is_marked(page: str, line: str, everything: bool) -> bool:
    """Whether a line is one that is not run."""
    return any(
        mark.page == page and line.startswith(mark.begins) and not (mark.long and everything)
        for mark in MARKS
    )


def without_marks(page: str, block: Block, everything: bool) -> Block:
    """A block without the commands that are not run; nothing is left of a text that is not
    compared."""
    if block.kind in ("command", "hidden"):
        kept = tuple(line for line in block.lines if not is_marked(page, line, everything))
    else:
        kept = () if is_marked(page, block.lines[0], everything) else block.lines
    return replace(block, lines=kept)
