"""Rows whose cells are good and that break a rule of their file."""

from collections.abc import Callable, Collection

from ..formats import EDGES, EVENT_DELAYS, GIVEN_LOADS, STOPS
from ..rows import Row
from .context import Context
from .findings import Finding, add_rows, both, either, finding, shown, take_out, write_line
from .nearest import is_like, nearest_ids
from .texts import Text, replaced

Told = Callable[[Context, Text, Row], Finding]


def _fix(it: Context, text: Text, row: Row, texts: list[str | None], other: str) -> str:
    """The first of some texts of a line that helps, else other words."""
    best = it.copy.first_that_helps(text.name, row.line, texts)
    if best is None:
        return other
    return write_line(text.name, row.line, best) if best else take_out(text.name, row.line)


def unknown(kind: str) -> Told:
    """An id of a stop or an edge that is not there."""

    def told(it: Context, text: Text, row: Row) -> Finding:
        known = {*it.names.stops} if kind == "stop" else {*it.names.edges}
        file = STOPS.name if kind == "stop" else EDGES.name
        place, wrong = _first_unknown(text, row, kind, known)
        near = nearest_ids(wrong, known)
        names = ", ".join(it.names.by_id(kind, at) for at in near)
        fixes: list[str | None] = [replaced(row, place, str(at)) for at in near]
        other = f"add {kind} {wrong} to {file}"
        return finding(
            f"{text.name} line {row.line}: {text.titles[place]} is {wrong}, and {file} has no"
            f" {kind} {wrong}",
            shown(text.line(row.line)),
            f"the nearest {kind}s: {names}" if near else f"{file} has no {kind} at all",
            remedy=_fix(it, text, row, fixes + ([None] if near else []), other),
            file=text.name if near else file,
        )

    return told


def _first_unknown(text: Text, row: Row, kind: str, known: Collection[int]) -> tuple[int, int]:
    """The first cell with an id that is not there, from 0, and the id."""
    for place, title in enumerate(text.titles):
        if title.endswith(kind) or title == f"{kind}-id":
            at = _number(row.cells[place])
            if at not in known:
                return place, at
    return 0, _number(row.cells[0])


def _number(cell: str) -> int:
    return int(float(cell)) if len(cell) < 30 else 0


def repeated_id(it: Context, text: Text, row: Row) -> Finding:
    """An id that a row before has."""
    at = _number(row.cells[0])
    rows = [one for one in text.rows if one.line < row.line]
    first = next((one for one in rows if _same(one.cells[0], at)), row)
    free = max((_number(one.cells[0]) for one in text.rows if _same(one.cells[0])), default=0) + 1
    fixes: list[str | None] = [replaced(row, 0, str(free))]
    if text.name == GIVEN_LOADS.name or first.cells == row.cells:
        fixes = [None]
    return finding(
        f"{text.name} line {row.line}: {text.titles[0]} {at} stands in line {first.line} already",
        f"line {first.line}: {shown(text.line(first.line))}",
        f"line {row.line}: {shown(text.line(row.line))}",
        remedy=_fix(it, text, row, fixes + [None], "give each row an id of its own"),
        file=text.name,
    )


def _same(cell: str, at: int | None = None) -> bool:
    plain = cell.partition(".")[0]
    return plain.isascii() and plain.isdigit() and at in (None, _number(plain))


def loop_edge(it: Context, text: Text, row: Row) -> Finding:
    """An edge from a stop to itself."""
    stop = _number(row.cells[1])
    return finding(
        f"{text.name} line {row.line}: both ends of edge {row.cells[0]} are stop"
        f" {it.names.stop_by_id(stop)}",
        shown(text.line(row.line)),
        remedy=_fix(it, text, row, [None], "write another stop as one of its ends"),
        file=text.name,
    )


def zero_bound(it: Context, text: Text, row: Row) -> Finding:
    """A length or a least time of 0."""
    place = 4 if row.cells[4].strip("0.") == "" else 3
    title, most = text.titles[place], row.cells[5]
    unit = "least minutes of a drive are at least 1" if place == 4 else "length is more than 0"
    fixes: list[str | None] = [replaced(row, place, "1")]
    if place == 4 and most.strip("0.") == "":
        fixes = [replaced(row._replace(cells=row.cells[:5] + ["1"]), place, "1")]
    if row.cells[3].strip("0.") == "" and place == 4:
        both_places = row._replace(cells=row.cells[:3] + ["1"] + row.cells[4:])
        fixes.append(replaced(both_places, place, "1"))
    return finding(
        f"{text.name} line {row.line}: {title} is {row.cells[place]}, and the {unit}",
        shown(text.line(row.line)),
        remedy=_fix(it, text, row, fixes, f"write another {title}"),
        file=text.name,
    )


def bounds_crossed(it: Context, text: Text, row: Row) -> Finding:
    """A greatest value below the least one."""
    low, high = row.cells[-2:]
    swapped = replaced(row._replace(cells=row.cells[:-1] + [low]), len(row.cells) - 2, high)
    return finding(
        f"{text.name} line {row.line}: {text.titles[-1]} is {high}, below the"
        f" {text.titles[-2]} {low}",
        shown(text.line(row.line)),
        remedy=_fix(it, text, row, [swapped], "write the lesser one first"),
        file=text.name,
    )


def no_path(it: Context, text: Text, row: Row) -> Finding:
    """Customers between two stops that no edges join."""
    first, second = (_number(cell) for cell in row.cells[:2])
    names, line = it.names, row.line
    apart = second if not names.neighbours.get(second) or names.neighbours.get(first) else first
    part = names.part_of(apart)
    says = f"no edge reaches stop {names.stop_by_id(apart)}"
    if len(part) > 1:
        told = ", ".join(names.stop(at) for at in sorted(part)[:4])
        more = f" and {len(part) - 4} more" if len(part) > 4 else ""
        says = f"from {told}{more} no edge leads on to {names.stop(first)}"
    other = first if apart == second else second
    edge = f"{max(names.edges, default=0) + 1}; {other}; {apart}; 1; 1; 2"
    added = it.copy.tried(EDGES.name, it.copy.text(EDGES.name).with_rows(edge))
    joins = add_rows(EDGES.name, edge) + " with its length and its minutes"
    is_good = not added.endswith(f"row {row.number}: no path")
    return finding(
        f"{text.name} line {line}: no way over edges leads from {names.stop_by_id(first)} to"
        f" {names.stop_by_id(second)}, and {row.cells[2]} customers want to go there",
        says,
        remedy=either(joins if is_good else "", take_out(text.name, line)),
        file=EDGES.name,
    )


def order_gap(it: Context, text: Text, row: Row) -> Finding:
    """A place in a line that is not the next one."""
    line = row.cells[0]
    before = [one for one in text.rows if one.line < row.line and one.cells[0] == line]
    wanted = str(len(before) + 1)
    return finding(
        f"{text.name} line {row.line}: order is {row.cells[1]}, and the next place of line {line}"
        f" is {wanted}",
        shown(text.line(row.line)),
        remedy=_fix(it, text, row, [replaced(row, 1, wanted), None], f"write {wanted} as order"),
        file=text.name,
    )


def repeated_edge(it: Context, text: Text, row: Row) -> Finding:
    """An edge that a line has already."""
    before = [one for one in text.rows if one.line < row.line and one.cells[0] == row.cells[0]]
    first = next((one for one in before if one.cells[2] == row.cells[2]), row)
    edge = it.names.edge(_number(row.cells[2]))
    return finding(
        f"{text.name} line {row.line}: line {row.cells[0]} has {edge} in line {first.line} already",
        f"line {row.line}: {shown(text.line(row.line))}",
        "a line goes back by itself, so each of its edges stands once",
        remedy=_fix(it, text, row, [None], "take the edge out and count the places on"),
        file=text.name,
    )


def broken_line(it: Context, text: Text, row: Row) -> Finding:
    """An edge that does not join the edges before it."""
    names, before = it.names, _edges_before(text, row)
    edge = _number(row.cells[2])
    ends = _open_ends(it, before)
    joining = [
        at
        for at, by in names.edges.items()
        if at not in before and {by.left_stop, by.right_stop} & ends
    ]
    told = ", ".join(names.edge(at) for at in joining[:3])
    fixes: list[str | None] = [replaced(row, 2, str(at)) for at in joining]
    more = [f"edges that join there: {told}"] if joining else []
    if _are_stops(it, before + [edge]):
        more.append("these may be ids of stops: lintim wants those of edges")
    return finding(
        f"{text.name} line {row.line}: {names.edge(edge)} does not join the end of"
        f" {names.edge(before[-1]) if before else 'the line'}, which line {row.cells[0]} has"
        " before",
        shown(text.line(row.line)),
        *more,
        remedy=_fix(it, text, row, fixes[:5] + [None], "write an edge that joins"),
        file=text.name,
    )


def _edges_before(text: Text, row: Row) -> list[int]:
    return [
        _number(one.cells[2])
        for one in text.rows
        if one.line < row.line and one.cells[0] == row.cells[0] and len(one.cells) == 3
    ]


def _open_ends(it: Context, edges: list[int]) -> set[int]:
    """The stops at which a walk over some edges may go on."""
    known = [it.names.edges[at] for at in edges if at in it.names.edges]
    if not known:
        return set()
    last = {known[-1].left_stop, known[-1].right_stop}
    if len(known) == 1:
        return last
    return last - {known[-2].left_stop, known[-2].right_stop} or last


def _are_stops(it: Context, ids: list[int]) -> bool:
    """Whether each two of some ids that follow one another are joined stops."""
    pairs = list(zip(ids, ids[1:]))
    return bool(pairs) and all(b in it.names.neighbours.get(a, set()) for a, b in pairs)


def missing_edge(it: Context, text: Text, row: Row | None = None) -> Finding:
    """Edges without a row in the file of loads."""
    there = {_number(one.cells[0]) for one in text.rows if _same(one.cells[0])}
    missing = [edge for edge in it.names.edges if edge not in there]
    told = ", ".join(it.names.edge(edge) for edge in missing[:5])
    more = f" and {len(missing) - 5} more" if len(missing) > 5 else ""
    rows = [f"{edge}; 0; 0; 3" for edge in missing[:20]]
    rest = f"a row for each of the other {len(missing) - 20}" if len(missing) > 20 else ""
    return finding(
        f"{text.name} has no row for {told}{more}",
        remedy=both(add_rows(text.name, *rows) if rows else "", rest),
        file=text.name,
    )


def unknown_of_day(it: Context, text: Text, row: Row) -> Finding:
    """A delay of an event or an activity that the day does not have."""
    kind = "event" if text.name == EVENT_DELAYS.name else "activity"
    count = it.day_count(kind)
    says = f"{text.name} line {row.line}: the day has no {kind} {row.cells[0]}"
    if not count:
        return finding(says, "the day has no trips at all", file=text.name)
    plural = "events" if kind == "event" else "activities"
    wrong = _number(row.cells[0])
    near = [at for at in nearest_ids(wrong, range(1, count + 1)) if is_like(wrong, at)]
    told = [f"{at}: {it.names.day[at]}" for at in near if kind == "event" and at in it.names.day]
    return finding(
        f"{says}: its {plural} are 1 to {count}",
        "numbers of a day change with the lines, the timetable and the day",
        *(f"{kind} {line}" for line in told[:3]),
        remedy=either(
            take_out(text.name, row.line),
            _fix(it, text, row, [replaced(row, 0, str(at)) for at in near], ""),
        ),
        file=text.name,
    )


RULES: dict[str, Told] = {
    "unknown stop": unknown("stop"),
    "unknown edge": unknown("edge"),
    "repeated id": repeated_id,
    "loop edge": loop_edge,
    "zero bound": zero_bound,
    "bounds crossed": bounds_crossed,
    "no path": no_path,
    "order gap": order_gap,
    "repeated edge": repeated_edge,
    "broken line": broken_line,
    "unknown event": unknown_of_day,
    "unknown activity": unknown_of_day,
}
