"""What the bytes of a file show: marks, 16-bit letters, line ends, separators, and no rows."""

from ..formats import DEMAND, EDGES, GIVEN_LOADS, POOL, STOPS
from .findings import Finding, call, either, finding
from .texts import Text

WIDE = (b"\xff\xfe", b"\xfe\xff")
BLANK = {
    STOPS.name: "so the dataset has no stops",
    EDGES.name: "so no stop is joined to another",
    POOL.name: "so there is no line that could be driven",
    DEMAND.name: "so nobody wants to travel, and no line is driven",
    GIVEN_LOADS.name: "so no edge has a load",
}


def of_bytes(text: Text) -> Finding | None:
    """The first of what the bytes of a file show that makes it another file than was meant."""
    name, data = text.name, text.data
    wide = _width(data)
    if wide:
        says = f"{name} is saved with two bytes for each letter (UTF-16, Unicode text)"
        convert = f"iconv -f {wide} -t UTF-8 {name} > {name}.new"
        return finding(
            f"{says}; lintim reads UTF-8",
            remedy=either(call(f"{convert} && mv {name}.new {name}"), "save it as UTF-8"),
            file=name,
        )
    if data.startswith(b"\xef\xbb\xbf"):
        says = f"{name} begins with a byte order mark (EF BB BF), which spreadsheets write"
        fix = call(f"sed -i '1s/^\\xef\\xbb\\xbf//' {name}")
        return finding(
            says, remedy=either(fix, "save it as UTF-8 without a byte order mark"), file=name
        )
    if b"\r" in data.replace(b"\r\n", b"") and b"\n" not in data:
        count = data.count(b"\r") + (not data.endswith(b"\r"))
        says = f"{name} ends its {count} lines with a carriage return alone, as old programs do"
        return finding(
            f"{says}; lintim takes it for one line" + (", a comment" if _is_comment(data) else ""),
            remedy=either(call(f"sed -i 's/\\r/\\n/g' {name}"), "save it with line feeds"),
            file=name,
        )
    if data[:4] == b"PK\x03\x04" or data[:4] == b"\xd0\xcf\x11\xe0":
        says = f"{name} is a file of a spreadsheet program, and no text"
        return finding(says, remedy="export the sheet as text with semicolons", file=name)
    return None


def _width(data: bytes) -> str:
    """The name of a 16-bit encoding, where the bytes show one."""
    for mark in WIDE:
        if data.startswith(mark):
            return "UTF-16"
    start = data[:2000]
    if len(start) >= 8 and start[1::2].count(0) > 0.4 * len(start):
        return "UTF-16LE"
    if len(start) >= 8 and start[::2].count(0) > 0.4 * len(start):
        return "UTF-16BE"
    return ""


def _is_comment(data: bytes) -> bool:
    return data.lstrip(b" \t").startswith(b"#")


def without_rows(text: Text) -> Finding | None:
    """A file that is there and has no rows."""
    if text.rows or text.name not in BLANK:
        return None
    what = "is empty" if not text.data.strip() else "has comments and no rows"
    columns = "; ".join(text.titles)
    return finding(
        f"{text.name} {what}, {BLANK[text.name]}",
        remedy=f"give it a row for each {_each(text.name)}: {columns}",
        file=text.name,
    )


def _each(name: str) -> str:
    words = {STOPS.name: "stop", EDGES.name: "edge", POOL.name: "edge of a line"}
    return words.get(name, "edge" if name == GIVEN_LOADS.name else "two stops with customers")


def separator_of(text: Text, line: str, wanted: int) -> tuple[str, str] | None:
    """What stands between cells where no semicolon does, and its name."""
    if ";" in line:
        return None
    for sign, name in (("\t", "tabs"), (",", "commas"), ("|", "bars"), (":", "colons")):
        if line.count(sign) == wanted - 1:
            return sign, name
    if wanted == 2 and line.count("=") == 1:
        return "=", "an equals sign"
    return (" ", "blanks") if len(line.split()) == wanted else None
