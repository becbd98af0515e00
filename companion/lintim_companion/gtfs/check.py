"""The checker of feeds: files, fields, cells, keys and references by the table in `reference`, and
the rules under conditions of `conditions`."""

from collections import Counter

from ..faults import Refused
from . import conditions, practice
from .cells import fault_of
from .feed import Feed
from .findings import Finding
from .reference import KNOWN, SHEETS, Field, Sheet

Cells = dict[str, str]


class Checker:
    """A feed under examination: what was found, and the ids that its files have."""

    def __init__(self, feed: Feed) -> None:
        self.feed = feed
        self.findings: list[Finding] = []
        self.ids: dict[str, set[str]] = {}  # by `FILE.FIELD`
        self.rows: dict[str, int] = {}  # how many rows each file has

    def error(self, file: str, row: int, says: str, rule: str = "") -> None:
        """Notes that a rule is broken."""
        self.findings.append(Finding(file, row, says, rule or says))

    def warn(self, file: str, row: int, says: str, rule: str = "") -> None:
        """Notes that advice is not kept."""
        self.findings.append(Finding(file, row, says, rule or says, False))

    def has(self, field: str, value: str) -> bool:
        """Whether some row has this id, by `FILE.FIELD`."""
        return value in self.ids.get(field, ())


def checked(feed: Feed) -> list[Finding]:
    """All that is found in a feed, by files in the order of the reference and by rows."""
    checker = Checker(feed)
    _see_files(checker)
    extra, advice = conditions.Conditions(checker), practice.Practice(checker)
    for name, sheet in SHEETS.items():
        if name in feed:
            try:
                _see_sheet(checker, sheet, (extra, advice))
            except Refused as why:
                checker.error(name, 0, str(why).removeprefix(f"{name} "), "cannot be read")
    extra.see_whole()
    advice.see_whole(extra.calls)
    for name in sorted(feed.not_utf8):
        checker.error(name, 0, "it is not UTF-8")
    return checker.findings


def _see_files(checker: Checker) -> None:
    """The files that have to be there, and those that no rule knows."""
    feed = checker.feed
    for name, sheet in SHEETS.items():
        if sheet.must and name not in feed:
            checker.error(name, 0, "the file is missing")
    if "calendar.txt" not in feed and "calendar_dates.txt" not in feed:
        checker.error("calendar.txt", 0, "it is missing, and so is calendar_dates.txt")
    if feed.folder:
        checker.error(feed.folder, 0, "the files stand in a folder inside of the zip file")
    for name in sorted(set(feed.names) - set(SHEETS) - KNOWN):
        checker.warn(name, 0, "no file of the reference has this name")


Seers = tuple["conditions.Conditions", "practice.Practice"]


def _see_sheet(checker: Checker, sheet: Sheet, seers: Seers) -> None:
    """One file: its header, and then each row."""
    lines = checker.feed.lines(sheet.name)
    number, header = next(lines, (0, []))
    header = [cell.strip() for cell in header]
    if not header:
        checker.error(sheet.name, 0, "it has no header")
        return
    _see_header(checker, sheet, number, header)
    keys: set[tuple[str, ...]] = set()
    key_fields = [name for name in sheet.key if name in header]
    collected = [f"{sheet.name}.{name}" for name in header if name.endswith("_id")]
    for name in collected:
        checker.ids.setdefault(name, set())
    for number, cells in lines:
        if len(cells) != len(header):
            says = f"{len(cells)} cells, and the header has {len(header)}"
            checker.error(sheet.name, number, says, "another number of cells than the header")
        row = dict(zip(header, cells))
        _see_cells(checker, sheet, number, row)
        for name in collected:
            if value := row.get(name.rpartition(".")[2], ""):
                checker.ids[name].add(value)
        key = tuple(row.get(name, "") for name in key_fields)
        if key_fields and key in keys and any(key):
            says = f"{', '.join(key_fields)}: {', '.join(key)} comes twice"
            checker.error(sheet.name, number, says, "a key that comes twice")
        keys.add(key)
        seers[0].see_row(sheet.name, number, row)
        seers[1].see_row(sheet.name, number, row)
    checker.rows[sheet.name] = len(keys)
    if not keys:
        checker.warn(sheet.name, 0, "it has no rows")


def _see_header(checker: Checker, sheet: Sheet, number: int, header: list[str]) -> None:
    for name, count in Counter(header).items():
        if count > 1:
            checker.error(sheet.name, number, f"{name or 'an empty field'} comes twice")
        elif name and name not in sheet.fields:
            says = f"{name}: the reference has no such field"
            checker.warn(sheet.name, number, says, "a field that the reference has not")
    for name, field in sheet.fields.items():
        if field.must and name not in header:
            checker.error(sheet.name, number, f"no field {name}")


def _see_cells(checker: Checker, sheet: Sheet, number: int, row: Cells) -> None:
    for name, text in row.items():
        if text != text.strip():
            says = f"{name}: blanks round {text.strip()!r}"
            checker.warn(sheet.name, number, says, "blanks round a cell")
            row[name] = text = text.strip()
        if "\n" in text or "\t" in text or "\r" in text:
            checker.error(sheet.name, number, f"{name}: a tab or a line end in a cell")
        field = sheet.fields.get(name)
        if field is None:
            continue
        if not text:
            if field.must:
                checker.error(sheet.name, number, f"{name} is empty", f"{name} is empty")
        elif (wanted := fault_of(field.kind, text)) is not None:
            says = f"{name} is {text!r}, wanted {wanted}"
            checker.error(sheet.name, number, says, f"{name}, wanted {wanted}")
        elif field.refers_to:
            _see_reference(checker, sheet, number, field, text)


def _see_reference(checker: Checker, sheet: Sheet, number: int, field: Field, text: str) -> None:
    """The id of a row in another file; those of the same file are looked at in the end."""
    targets = field.refers_to
    if targets[0].startswith(sheet.name):
        return
    if not any(checker.has(target, text) for target in targets):
        where = " and ".join(target.rpartition(".")[0] for target in targets)
        says = f"{field.name}: {text!r} is not in {where}"
        checker.error(sheet.name, number, says, f"{field.name} is not in {where}")
