"""The blocks of a page: what it shows as commands, and what as texts."""

import re
from dataclasses import dataclass
from typing import Literal

Kind = Literal["command", "shown", "hidden", "file"]
COMMANDS = re.compile(
    r"\(?(?:\S*/)?(?:lintim(?:-[a-z]+)?|pesp-judge|test|install|check|try|pages)(?: (?!keep |make ends )|$)"
    r"|\(?(?:apt|awk|bench/\w+|cd|cp|echo|git|grep|mkdir|printf|rm|rt|sed) |PATH="
)
SYNOPSIS = re.compile(r"\[(?:--|[A-Z])")
COMMENT = re.compile(r"<!-- (run|file): (.*?) *-->", re.S)
SPAN = re.compile(r"(?<!`)`([^`]+)`(?!`)")


@dataclass(frozen=True)
class Block:
    """A part of a page that is run or shown; `line` is where it stands, from 1."""

    line: int
    kind: Kind
    lines: tuple[str, ...]

    @property
    def text(self) -> str:
        """The lines, each with its end."""
        return "".join(f"{line}\n" for line in self.lines)


def is_command(line: str) -> bool:
    """Whether a block that begins with this line shows commands, and no synopsis of one."""
    return COMMANDS.match(line) is not None and not is_synopsis(line)


def is_synopsis(line: str) -> bool:
    """Whether a block that begins with this line shows the words of a command, some in capitals."""
    return SYNOPSIS.search(line) is not None


def shown_block(line: int, lines: list[str]) -> Block:
    """A block that readers see."""
    return Block(line, "command" if is_command(lines[0]) else "shown", tuple(lines))


def comment_at(rest: str, line: int) -> tuple[Block, int] | None:
    """The comment for us with which a text begins, and over how many lines it goes."""
    found = COMMENT.match(rest)
    if not found:
        return None
    kind: Kind = "hidden" if found[1] == "run" else "file"
    return Block(line, kind, tuple(found[2].splitlines())), found[0].count("\n") + 1


def blocks_of(text: str) -> list[Block]:
    """All blocks of a page in their order: those that are indented by four spaces after an empty
    line, those between fences, and comments for us."""
    lines = text.splitlines()
    found: list[Block] = []
    place = 0
    while place < len(lines):
        comment = comment_at("\n".join(lines[place:]), place + 1)
        if comment:
            found.append(comment[0])
            place += comment[1]
        elif lines[place].startswith("```"):
            end = lines.index("```", place + 1)
            found.append(shown_block(place + 2, lines[place + 1 : end]))
            place = end + 1
        elif lines[place].startswith("    ") and (place == 0 or not lines[place - 1].strip()):
            end = place
            while end < len(lines) and lines[end].startswith("    "):
                end += 1
            found.append(shown_block(place + 1, [line[4:] for line in lines[place:end]]))
            place = end
        else:
            place += 1
    return found


def spans_of(text: str) -> list[tuple[int, str]]:
    """What stands between backquotes in the prose of a page, with its line. Blocks and
    comments are left out."""
    kept = COMMENT.sub(lambda comment: "\n" * comment[0].count("\n"), text)
    kept = re.sub(r"^(?:    |```).*$", "", kept, flags=re.M)
    return [
        (kept.count("\n", 0, span.start()) + 1, " ".join(span[1].split()))
        for span in SPAN.finditer(kept)
    ]
