"""Walks through a page: runs it block by block, and tells where it differs."""

from collections.abc import Iterator
from dataclasses import dataclass, field
from pathlib import Path

from .. import program
from .blocks import Block, blocks_of, is_synopsis, spans_of
from .compare import are_rows_of, is_report, stands_in
from .marks import SPANS, without_marks
from .shell import Shell, Step

WRONG = (126, 127)  # exit statuses of a shell that did not find a command, or could not start it


@dataclass
class Walk:
    """What came of a page so far."""

    page: str
    text: str
    shell: Shell
    steps: list[Step] = field(default_factory=list)
    faults: list[str] = field(default_factory=list)
    counts: dict[str, int] = field(default_factory=lambda: {"run": 0, "compared": 0, "left": 0})

    def fault(self, line: int, says: str) -> None:
        """Notes that the page differs."""
        self.faults.append(f"{self.page} line {line}: {says}")

    @property
    def folder(self) -> Path:
        """Where the shell is."""
        return self.steps[-1].folder if self.steps else self.shell.place / "checkout"

    def line(self) -> str:
        """What came of the page, in a line."""
        counts = self.counts
        return (
            f"{self.page}: {counts['run']} blocks run, {counts['compared']} texts compared, "
            f"{counts['left']} left out; {len(self.faults)} differ"
        )

    def files(self) -> Iterator[list[str]]:
        """The lines of each file of the dataset where the shell is."""
        if (self.folder / "basis").is_dir():
            for path in sorted(self.folder.rglob("*")):
                if path.is_file() and not path.is_symlink() and path.stat().st_size < 1 << 24:
                    yield path.read_text(errors="replace").splitlines()

    def run(self, block: Block) -> None:
        """Runs a block of commands. One that fails is a fault, but where the page tells why."""
        step = self.shell.run(block.text)
        self.steps.append(step)
        self.counts["run"] += 1
        last = (step.printed.splitlines() or [""])[-1]
        is_told = step.status not in WRONG and last in self.text
        if step.status and not is_told or "Traceback" in step.printed:
            self.fault(block.line, f"ends with {step.status}: {last}")

    def compare(self, block: Block) -> None:
        """Looks for a shown block in all that was printed, and in the files that stand now."""
        printed = any(stands_in(block.lines, it.printed.splitlines()) for it in self.steps)
        in_file = any(
            stands_in(block.lines, it) or are_rows_of(block.lines, it) for it in self.files()
        )
        if not printed and not in_file:
            self.fault(block.line, f"nothing prints or has this: {block.lines[0]}")
        self.counts["compared"] += 1

    def write(self, name: str, block: Block) -> None:
        """Writes a block as a file of the folder where the shell is."""
        path = self.folder / name
        path.parent.mkdir(parents=True, exist_ok=True)
        path.write_text(block.text)

    def go(self, blocks: list[Block], everything: bool) -> None:
        """Runs or compares block after block."""
        target = ""
        for whole in blocks:
            block = without_marks(self.page, whole, everything)
            self.counts["left"] += len(whole.lines) - len(block.lines)
            if block.kind == "file":
                target = block.lines[0]
            elif target:
                self.write(target, block)
                target = ""
            elif block.lines and block.kind != "shown":
                self.run(block)
            elif block.lines and not is_synopsis(block.lines[0]):
                self.compare(block)

    def compare_span(self, line: int, span: str) -> None:
        """Looks for a line of a report that the prose tells."""
        if is_report(span) and (self.page, span) not in SPANS:
            if not any(stands_in([span], it.printed.splitlines()) for it in self.steps):
                self.fault(line, f"nothing prints this: {span}")
            self.counts["compared"] += 1


def pages() -> list[str]:
    """All pages of the checkout, named from its top."""
    found = [*program.CHECKOUT.glob("*.md"), *program.CHECKOUT.glob("companion/*.md")]
    for below in ("docs/*.md", "docs/house/*.md", "crates/*.md", "crates/*/README.md"):
        found += program.CHECKOUT.glob(below)
    return sorted(str(path.relative_to(program.CHECKOUT)) for path in found)


def pages_to_run() -> list[str]:
    """The pages that have commands; what others show is compared with nothing."""
    texts = {page: (program.CHECKOUT / page).read_text() for page in pages()}
    return [
        page for page in texts if any(block.kind != "shown" for block in blocks_of(texts[page]))
    ]


def walk(page: str, place: Path, everything: bool = False) -> Walk:
    """Runs a page, named from the top of the checkout, in a new folder. What takes minutes runs
    only with `everything`."""
    text = (program.CHECKOUT / page).read_text()
    walked = Walk(page, text, Shell(place))
    try:
        walked.go(blocks_of(text), everything)
        if walked.steps:
            for line, span in spans_of(text):
                walked.compare_span(line, span)
    finally:
        walked.shell.stop()
    return walked
