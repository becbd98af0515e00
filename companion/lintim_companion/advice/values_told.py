"""Settings: values that are refused, rows of config files, and keys that nobody reads."""

import re

from ..cells import Cell, Fixed, Whole, WholeOrWord, Word
from ..columns import Key, keys
from ..formats import CONFIG
from ..settings import ConfigRow
from ..tables import text_of
from .context import Context
from .findings import Finding, add_rows, finding, shown, take_out, write_line
from .nearest import nearest_name, plain
from .ranges import wanted
from .spellings import fits, meant
from .texts import Text

KEYS = {key.name: key for key in keys()}
FOREIGN = ("include", "include_if_exists")
TOLD_APART = ("ptn_is_undirected", "time_units_per_minute")
SYNONYMS = {
    "true": "yes", "on": "yes", "1": "yes", "y": "yes", "ja": "yes", "false": "no", "off": "no",
    "0": "no", "n": "no", "nein": "no", "lines": "concept", "line": "concept", "demand": "od",
    "line-planning": "concept", "timetabling": "timetable", "tim": "timetable", "loads": "load",
    "vehicle-scheduling": "vehicles", "delay-management": "disposition", "all_stages": "statistic",
    "never": "none", "always": "all", "keine": "none", "alle": "all", "costs": "cost",
}  # fmt: skip


OTHER_NAMES = {
    "capacity": "gen_passengers_per_vehicle",
    "vehiclecapacity": "gen_passengers_per_vehicle",
    "seats": "gen_passengers_per_vehicle",
    "cycletime": "period_length",
    "interval": "period_length",
    "turnaround": "vs_turn_over_time",
    "turnaroundtime": "vs_turn_over_time",
    "starttime": "DM_earliest_time",
    "endtime": "DM_latest_time",
    "vehiclecost": "vs_vehicle_costs",
    "linecost": "lpool_costs_fixed",
}


def config_rows(it: Context) -> list[ConfigRow]:
    """The rows of all config files that can be read, those of included files too."""
    if it.config.rows:
        return it.config.rows
    found = []
    for name, text in it.copy.texts.items():
        if name.endswith(".cnf"):
            good = [row for row in text.rows if len(row.cells) == 2]
            found += [ConfigRow(name, row.number, row.line, *row.cells) for row in good]
    return sorted(found, key=lambda row: row.name == CONFIG)


def value(it: Context, name: str) -> Finding:
    """A value of a key that is refused."""
    key = KEYS.get(name)
    if key is None:
        return finding(f"the value of {name} is refused", file=CONFIG)
    row = next((one for one in reversed(config_rows(it)) if one.key == name), None)
    found = row.value if row else text_of(key.cell, key.default)
    where = f"{row.name} line {row.line}: {name} is `{shown(found)}`" if row else ""
    where = where or f"no row of {CONFIG} has {name}, so it is {found}"
    says = [where, f"{name} says {key.use.says}: {_held(key)}"]
    guesses, more = _guesses(it, key, found)
    last = [guess for guess in guesses if f"value of {name}" not in _with(it, row, name, guess)]
    remedy = _set(row, name, last[0]) if last else f"write {wanted(key.cell)} as {name}"
    return finding(*says, *more, remedy=remedy, file=row.name if row else CONFIG)


def _held(key: Key) -> str:
    held = wanted(key.cell)
    if key.use.not_below:
        held += f", not below {key.use.not_below}"
    if key.use.at_most_half_of:
        held += f", at most half of {key.use.at_most_half_of}"
    return held


def _set(row: ConfigRow | None, name: str, new: str) -> str:
    if row is None:
        return add_rows(CONFIG, f"{name}; {new}")
    return write_line(row.name, row.line, f"{name}; {new}")


def _with(it: Context, row: ConfigRow | None, name: str, new: str) -> str:
    """The last line of the report with another value of a key."""
    file = row.name if row else CONFIG
    text = it.copy.text(file)
    if row is None:
        return it.copy.tried(file, text.with_rows(f"{name}; {new}"))
    return it.copy.tried(file, text.with_line(row.line, f"{name}; {new}"))


def _guesses(it: Context, key: Key, found: str) -> tuple[list[str], list[str]]:
    """What may have been meant by a value, and why, the likeliest first."""
    guesses, more = _of_bounds(it, key, found)
    look = meant(key.cell, found)
    if look:
        more.append(f"`{shown(found)}`: {look.says}")
        guesses += [look.value] if look.value else []
    words = _words(key.cell)
    if words:
        word = SYNONYMS.get(found.lower())
        near = word if word in words else nearest_name(found, words, 0.5)
        guesses += [near] if near else []
    if found.strip("0.") == "" and not fits(key.cell, found):
        guesses.append(text_of(key.cell, key.default))
    return guesses + _in_range(key.cell, found), more + _seconds(key, found)


def _words(cell: Cell) -> tuple[str, ...]:
    return cell.words if isinstance(cell, Word | WholeOrWord) else ()


def _seconds(key: Key, found: str) -> list[str]:
    cell = key.cell
    if isinstance(cell, Whole) and cell.unit == "minutes" and _as_minutes(found, cell):
        return [f"{found} seconds are {int(found) // 60} minutes"]
    return []


def _as_minutes(found: str, cell: Whole) -> int:
    """Seconds in minutes, where a number is beyond the range and full minutes; else 0."""
    if not re.fullmatch(r"\d{1,9}", found) or int(found) <= cell.greatest or int(found) % 60:
        return 0
    return int(found) // 60 if cell.least <= int(found) // 60 <= cell.greatest else 0


def _in_range(cell: Cell, found: str) -> list[str]:
    """The nearest number of the range to one that is beyond it."""
    ends = cell.whole if isinstance(cell, WholeOrWord) else cell
    if not isinstance(ends, Whole | Fixed) or not re.fullmatch(r"-?\d{1,30}(\.\d+)?", found):
        return []
    if isinstance(ends, Whole) and ends.unit == "minutes" and _as_minutes(found, ends):
        return [str(_as_minutes(found, ends))]
    if found.startswith("-"):
        return [found[1:], str(ends.least)] if fits(ends, found[1:]) else [str(ends.least)]
    return [str(ends.greatest if float(found) > ends.greatest else ends.least)]


def _of_bounds(it: Context, key: Key, found: str) -> tuple[list[str], list[str]]:
    """Where a value breaks a bound that another key sets."""
    other = key.use.not_below or key.use.at_most_half_of
    if not other or not fits(key.cell, found):
        return [], []
    row = next((one for one in reversed(config_rows(it)) if one.key == other), None)
    bound = row.value if row else str(KEYS[other].default)
    if not fits(KEYS[other].cell, bound):
        return [], []
    where = f"{row.name} line {row.line}" if row else "where no row has it"
    more = [f"{other} is {bound} ({where})"]
    if key.use.at_most_half_of:
        return [str(int(float(bound)) // 2)], more
    if key.name == "DM_latest_time" and int(float(found)) <= 1440:
        more.append("a day that goes on after midnight is counted on: 24:00 is 1440")
        return [str(int(float(found)) + 1440), bound], more
    if key.name == "ean_default_maximal_change_time":
        free = int(float(bound)) + _period(it) - 1
        return [str(free), bound], [*more, f"with {free} a change may take any minute of a period"]
    return [bound], more


def _period(it: Context) -> int:
    """The period, as far as its row can be read."""
    row = next((one for one in reversed(config_rows(it)) if one.key == "period_length"), None)
    is_good = row is not None and fits(KEYS["period_length"].cell, row.value)
    return int(float(row.value)) if row and is_good else int(KEYS["period_length"].default)


def config_row(it: Context, text: Text, line: int, why: str) -> Finding:
    """An include row that is refused."""
    row = text.row_at(line)
    cells = row.cells if row else ["", ""]
    where = f"{text.name} line {line}: {shown(text.line(line))}"
    if why == "include outside the dataset":
        says = "a file that is included stands in the folder basis, and its name ends in .cnf"
        name = re.sub(r"(?i)\.cnf$", ".cnf", cells[1].replace("\\", "/").split("/")[-1])
        names = [one for one in it.copy.configs if f"basis/{one}" != text.name]
        near = nearest_name(name, names, 0.9)
        new = f"{cells[0]}; {near}" if near and near.endswith(".cnf") else None
        remedy = write_line(text.name, line, new) if new else take_out(text.name, line)
        return finding(where, says, remedy=remedy, file=text.name)
    says = "a file that includes itself, over others too, never ends"
    if why == "too many includes":
        says = "at most 1000 include rows are read, each as often as its file"
    return finding(f"{where}: {why}", says, remedy=take_out(text.name, line), file=text.name)


def unknown_keys(it: Context) -> list[Finding]:
    """Keys that are like one of `lintim`, each of them, and then all others together."""
    found, others = [], []
    for row in config_rows(it):
        if row.key in KEYS or row.key in FOREIGN + TOLD_APART or row.key.startswith("\ufeff"):
            continue
        near = OTHER_NAMES.get(plain(row.key)) or nearest_name(row.key, KEYS)
        if near is None:
            others.append(row)
            continue
        value_now = getattr(it.settings, near)
        now = text_of(KEYS[near].cell, value_now)
        found.append(
            finding(
                f"{row.name} line {row.line}: `{shown(row.key)}` is no key of lintim, so it changes"
                f" nothing: {near} is {now}",
                remedy=_spelled(it, row, near),
                file=row.name,
            )
        )
    if others:
        told = ", ".join(f"`{shown(row.key)}`" for row in others[:5])
        more = f" and {len(others) - 5} more" if len(others) > 5 else ""
        found.append(
            finding(
                f"keys that lintim does not know and passes over: {told}{more}",
                remedy="leave them where another program reads them; docs/SETTINGS.md has the keys",
                file=CONFIG,
            )
        )
    return found


def _spelled(it: Context, row: ConfigRow, near: str) -> str:
    """The row with the right key, and a value that the key takes."""
    cell = KEYS[near].cell
    look = meant(cell, row.value)
    new = look.value if look and look.value and not fits(cell, row.value) else row.value
    if not fits(cell, new):
        return f"write line {row.line} of {row.name} with the key {near}, as {wanted(cell)}"
    return write_line(row.name, row.line, f"{near}; {new}")
