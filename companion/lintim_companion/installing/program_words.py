"""The words of the program `lintim`, as data. Its usage line, which is part of the proved program,
has the same ones in the same order; a test compares them."""

from dataclasses import dataclass


@dataclass(frozen=True)
class ProgramWord:
    """A word that `lintim` takes, with what follows it, and what it does."""

    name: str
    follow: str
    says: str
    about: str

    @property
    def usage(self) -> str:
        """The word with what follows it, as the usage line has it."""
        return f"{self.name} {self.follow}".rstrip()


PROGRAM_WORDS = (
    ProgramWord(
        "make",
        "",
        "runs the stages and writes their files",
        "A stage whose settings and inputs are unchanged is copied from what is kept. Where made files\n"
        "of another program stand it does nothing, unless --own follows.",
    ),
    ProgramWord(
        "fresh",
        "",
        "runs the stages, and uses nothing that is kept",
        "What it leaves is what make leaves. Run it after a power cut.",
    ),
    ProgramWord(
        "check",
        "",
        "judges the files that stand there, whoever made them",
        "The certificates beside line concepts, vehicle schedules and dispositions are judged too.",
    ),
    ProgramWord(
        "status",
        "",
        "tells of each stage whether its files are up to date",
        "A stage is kept, stale, edited, unknown or off.",
    ),
    ProgramWord(
        "demo",
        "N",
        "runs the stages over a network made from a number from 1 to 8",
        "No file is read or written.",
    ),
    ProgramWord(
        "waits",
        "P B",
        "chooses which changes of a late day are kept",
        "P is how many minutes of delay a dropped change counts for, and B how many entries the\n"
        "search may take. What is printed is saved as waiting/Waits.cert.",
    ),
    ProgramWord(
        "check-waits",
        "P",
        "judges the waiting decision in waiting/Waits.cert",
        "P is how many minutes of delay a dropped change counts for.",
    ),
    ProgramWord(
        "journey",
        "A B T planned",
        "tells the journey from stop A to stop B after minute T that arrives first",
        "It goes by the planned times of the day. T counts minutes from the start of the day.",
    ),
    ProgramWord(
        "journey",
        "A B T disposed",
        "the same by the times of the day with its delays",
        "Only changes that are kept can be taken.",
    ),
    ProgramWord(
        "pool",
        "S1 S2 ..",
        "prints a pool of shortest lines between 2 to 20 stops",
        "What is printed is saved as basis/Pool.giv.",
    ),
)

# What the starter of an installed program takes beside them.
STARTER_WORDS = (
    ("--help", "prints these words"),
    ("--version", "prints the version, the commit, and where the program was proved"),
)

PROGRAM_STATUSES = (
    (0, "a line for each stage and done; checked; the states of the stages; an answer"),
    (2, "the words are no command: the usage line is printed"),
    (3, "refused: a file, its row and the rule, a count, or a key"),
    (4, "no solution: no line concept is feasible, or no timetable keeps all bounds"),
    (5, "spent: the search found none within its budget"),
    (6, "a file could not be read or written; the standard error says which"),
    (7, "the report could not be written"),
    (8, "out of memory"),
    (9, "uncertified: a check found files that break a rule"),
)


def usage_line() -> str:
    """The usage line that the words make."""
    return f"usage: lintim {' | '.join(word.usage for word in PROGRAM_WORDS)}"


def names() -> list[str]:
    """The first words, each once, in their order."""
    return list(dict.fromkeys(word.name for word in PROGRAM_WORDS))


def help_text() -> str:
    """What `lintim --help` prints."""
    width = max(len(word.usage) for word in PROGRAM_WORDS)
    lines = [f"  {word.usage:<{width}}  {word.says}" for word in PROGRAM_WORDS]
    starter = [f"  {name:<{width}}  {says}" for name, says in STARTER_WORDS]
    statuses = [f"  {status}  {says}" for status, says in PROGRAM_STATUSES]
    return "\n".join(
        [
            "lintim: a proved planning chain for public transport.",
            "It runs in the folder of a dataset.",
            "",
            *lines,
            *starter,
            "",
            "exit status:",
            *statuses,
            "",
            "man lintim tells more.",
            "",
        ]
    )
