"""What is found in a feed: a file, its row as an editor counts lines, a rule, and whether it breaks
the reference (an error) or its advice (a warning)."""

from collections.abc import Iterable
from typing import NamedTuple

SHOWN = 10  # findings of one rule in one file that are told


class Finding(NamedTuple):
    """A place in a feed and what is wrong there; row 0 stands for the whole file."""

    file: str
    row: int
    says: str
    rule: str
    is_error: bool = True

    def line(self) -> str:
        """The finding in one line."""
        kind = "error" if self.is_error else "warning"
        at = f"{self.file} row {self.row}" if self.row else self.file
        return f"{kind}: {at}: {self.says}"


def told(findings: Iterable[Finding]) -> list[str]:
    """The lines of findings by file and row: of each rule in each file the first ones, and how
    many more there are."""
    by_rule: dict[tuple[str, str, bool], list[Finding]] = {}
    for it in findings:
        by_rule.setdefault((it.file, it.rule, not it.is_error), []).append(it)
    lines = []
    for (file, rule, _), found in sorted(by_rule.items()):
        lines += [it.line() for it in sorted(found)[:SHOWN]]
        if len(found) > SHOWN:
            more = len(found) - SHOWN
            lines.append(f"{found[0].line().split(':')[0]}: {file}: {more} more: {rule}")
    return lines
