"""Further mistakes, each as an edit of the town; what is to be said of each stands in
`data/why.txt`."""

import os
import shutil
from pathlib import Path

from lintim_companion import program
from mistakes import CONFIG, EDGE, LATE, LOAD, OD, POOL, STOP
from mistakes import Edit, Mistake, add, all_of, every, key, move, put, remove, swap

STOPS_OF_POOL = (9, 11, 7, 4, 12)
LATE_TRIPS = "delay-management/Activity-delays.giv"


def pool_of(*stops: int) -> Edit:
    """A pool of shortest lines between stops, as `lintim pool` prints it."""

    def edit(folder: Path) -> None:
        (folder / POOL).write_text(program.run(folder, "pool", *map(str, stops)).out)

    return edit


def loads(spread: int) -> Edit:
    """Loads in the place of demand, made by `lintim` with another spread."""

    def edit(folder: Path) -> None:
        key("load_spread", spread)(folder)
        program.run(folder, "make")
        shutil.copy(folder / "line-planning/Load.giv", folder / LOAD)
        key("load_source", "file")(folder)

    return edit


def pinned_concept(old: str, new: str) -> Edit:
    """The concept of the town as a pinned one, with another text in the place of one."""

    def edit(folder: Path) -> None:
        program.run(folder, "make")
        made = (folder / "line-planning/Line-Concept.lin").read_text()
        assert old in made
        put("pinned/Line-Concept.lin", made.replace(old, new))(folder)
        key("pin_concept", "yes")(folder)

    return edit


def made(folder: Path) -> None:
    """All plans."""
    program.run(folder, "make")


def doubled(folder: Path) -> None:
    """A made file has a second name, and is to change."""
    made(folder)
    os.link(folder / "statistic/statistic.sta", folder / "a copy")
    key("vs_vehicle_costs", 50)(folder)


def linked(folder: Path) -> None:
    """A made folder is a link to another place."""
    made(folder)
    (folder / "statistic").rename(folder / "elsewhere")
    (folder / "statistic").symlink_to("elsewhere")


TWO_LINES = "1; 1; 1\n2; 1; 1\n3; 1; 1\n"
SHORT = all_of(  # three lines over one edge, in a dataset of two stops
    put(STOP, "1; A; Alt; 0; 0\n2; N; Neu; 1; 1\n"),
    put(EDGE, "1; 1; 2; 1; 3; 4\n"),
    put(OD, "1; 2; 200\n"),
    put(POOL, TWO_LINES),
    remove(LATE),
)
MANY_TRIPS = all_of(key("period_length", 5), key("ean_headway", 0), key("DM_latest_time", 1380))


def pinned_schedule(folder: Path) -> None:
    """The schedule of the town as LinTim writes it: line -1 in empty drives."""
    made(folder)
    text = (folder / "vehicle-scheduling/Vehicle_Schedules.vs").read_text()
    put("pinned/Vehicle_Schedules.vs", text.replace("; 0\n", "; -1\n"))(folder)
    key("pin_vehicles", "yes")(folder)


def given_loads(folder: Path) -> None:
    """Loads of LinTim beside the demand."""
    made(folder)
    shutil.copy(folder / "line-planning/Load.giv", folder / LOAD)


def other_costs(folder: Path) -> None:
    """Costs of LinTim where nothing was made yet."""
    made(folder)
    lines = (folder / "basis/Pool-Cost.giv").read_text().splitlines()
    shutil.rmtree(folder / "keep")
    lines[1] = "; ".join(lines[1].split("; ")[:2] + ["77"])
    put("basis/Pool-Cost.giv", "\n".join(lines) + "\n")(folder)


def both_ways(folder: Path) -> None:
    """Another edge for each one, which leads back."""
    edges = [row.split("; ") for row in (folder / EDGE).read_text().splitlines()[1:]]
    back = [[str(int(a) + 100), c, b, *more] for a, b, c, *more in edges]
    add(EDGE, "".join("; ".join(row) + "\n" for row in back))(folder)


EVENTS_OF_LINTIM = (
    "# event-id; type; stop-id; line-id; passengers; line-direction; line-freq-repetition\n"
    '1; "departure"; 1; 1; 0; >; 1\n'
)
OF_LINTIM = (
    Mistake(
        "include of LinTim", every(CONFIG, lambda it: b'include; "../../Global-Config.cnf"\n' + it)
    ),
    Mistake("directed network of LinTim", key("ptn_is_undirected", "false")),
    Mistake("ten time units a minute", key("time_units_per_minute", 10)),
    Mistake(
        "a day of seconds that fits",
        all_of(key("DM_earliest_time", 3600), key("DM_latest_time", 7200)),
    ),
    Mistake("line -1 of empty drives", pinned_schedule),
    Mistake("loads of LinTim beside demand", given_loads),
    Mistake("costs of LinTim", other_costs),
    Mistake("edges of both directions", both_ways),
    Mistake("made files of LinTim", put("timetabling/Events-periodic.giv", EVENTS_OF_LINTIM)),
)


OWN = (
    *OF_LINTIM,
    Mistake("date in a length", swap(EDGE, "1; 1; 2; 1.1;", "1; 1; 2; 01.01.2026;")),
    Mistake("named date in a length", swap(EDGE, "1; 1; 2; 1.1;", "1; 1; 2; 1. Jan;")),
    Mistake("thousands with an apostrophe", swap(OD, "1; 3; 120", "1; 3; 1'200")),
    Mistake("thousands with a comma", swap(EDGE, "1; 1; 2; 1.1;", "1; 1; 2; 1,234.5;")),
    Mistake("a comma in customers", swap(OD, "1; 3; 120", "1; 3; 1,200")),
    Mistake(
        "commas in customers",
        all_of(swap(OD, "1; 3; 120", "1; 3; 1,120"), swap(OD, "3; 1; 110", "3; 1; 1,110")),
    ),
    Mistake("plus sign", swap(OD, "1; 3; 120", "1; 3; +120")),
    Mistake("no digit before the point", swap(EDGE, "2; 2; 3; 0.5;", "2; 2; 3; .5;")),
    Mistake("letter O for zero", swap(OD, "1; 3; 120", "1; 3; 12O")),
    Mistake("missing value NaN", swap(OD, "1; 3; 120", "1; 3; NaN")),
    Mistake("error of a spreadsheet", swap(OD, "1; 3; 120", "1; 3; #REF!")),
    Mistake("a unit in the column", swap(EDGE, "1; 1; 2; 1.1;", "1; 1; 2; 1.1 km;")),
    Mistake("typographic quotes", swap(OD, "1; 3; 120", "1; 3; “120”")),
    Mistake("dash for minus", swap(OD, "1; 3; 120", "1; 3; –120")),
    Mistake("minutes as clock times", swap(EDGE, "1; 1; 2; 1.1; 3; 4", "1; 1; 2; 1.1; 00:03; 4")),
    Mistake("UTF-16 without a mark", every(OD, lambda it: it.decode().encode("utf-16-le"))),
    Mistake("a spreadsheet file", put(OD, b"PK\x03\x04\x14\x00\x06\x00")),
    Mistake("bars for semicolons", every(POOL, lambda it: it.replace(b"; ", b" | "))),
    Mistake("one row with a cell more", swap(OD, "1; 3; 120", "1; 3; 120; bus")),
    Mistake("one row with a cell less", swap(OD, "1; 3; 120", "1; 3")),
    Mistake("a sentence in a file", swap(OD, "1; 3; 120", "only the morning\n1; 3; 120")),
    Mistake("empty lines before the fault", every(OD, lambda it: b"\n\n\n" + it + b"1; 99; 5\n")),
    Mistake("length 0", swap(EDGE, "2; 2; 3; 0.5;", "2; 2; 3; 0;")),
    Mistake("edge id twice", add(EDGE, "16; 1; 3; 1; 2; 3\n")),
    Mistake("places of a line with a gap", swap(POOL, "2; 3; 1\n2; 4; 6", "2; 3; 1\n2; 5; 6")),
    Mistake("no pool", remove(POOL)),
    Mistake(
        "loads in the place of demand", all_of(loads(8), remove(OD), swap(CONFIG, "file", "od"))
    ),
    Mistake("given loads that leave an edge out", all_of(loads(8), swap(LOAD, "16; ", "# 16; "))),
    Mistake("given loads that are too tight", loads(0)),
    Mistake("the town that got stuck", all_of(swap(CONFIG, "8", "3"), pool_of(*STOPS_OF_POOL))),
    Mistake("a pool of three terminals", pool_of(9, 11, 7)),
    Mistake("a budget of ten entries", key("concept_budget", 10)),
    Mistake("a budget that finds and does not prove", key("concept_budget", 400)),
    Mistake("a budget of ten entries for times", key("timetable_budget", 10)),
    Mistake("headways that do not fit", all_of(SHORT, key("ean_headway", 25))),
    Mistake("headway over half of the period", key("ean_headway", 31)),
    Mistake("too many trips", MANY_TRIPS),
    Mistake(
        "keys by other names", all_of(key("headway", 3), key("capacity", 80), key("colour", "red"))
    ),
    Mistake("costs with thousands", key("vs_vehicle_costs", "1.000")),
    Mistake("demand of nobody", all_of(put(OD, "1; 3; 0\n2; 2; 50\n"), remove(LATE))),
    Mistake("a stop without an edge", add(STOP, "13; NEU; Neubau; 7.7; 49.4\n")),
    Mistake(
        "a pinned concept that drives too rarely", pinned_concept("8; 1; 16; 1", "8; 1; 16; 0")
    ),
    Mistake(
        "a pinned concept of another pool", all_of(pinned_concept("", ""), add(POOL, "13; 1; 1\n"))
    ),
    Mistake("a pinned plan that nobody reads", put("pinned/Line-Concept.lin", "1; 1; 10; 1\n")),
    Mistake("a delay whose event moved", all_of(made, key("DM_earliest_time", 300))),
    Mistake("a delay of an activity that is not there", put(LATE_TRIPS, "99999; 5\n")),
    Mistake("a decision without a tree", put("waiting/Waits.cert", "cost; 0; 5\nkeep; 1; 0\n")),
    Mistake("a made file with a second name", doubled),
    Mistake("a made folder is a link", linked),
    Mistake("a file saved as .txt", move(OD, "basis/OD.giv.txt")),
    Mistake("a config that includes itself", key("include", "Config.cnf")),
    Mistake("an include that is missing", key("include", "more.cnf")),
    Mistake("journey as jurney", words="jurney Markt Flughafen 07:00 plan", is_made=True),
    Mistake("demo 9", words="demo 9"),
)
