"""`lintim-convert`: folders in LinTim's form, row by row of what is known of its formats."""

import contextlib
import io
import random
import signal
import sys
from pathlib import Path

import pytest

import hostile
import second_reader
from commands import Ended, run
from lintim_companion import manners, program
from lintim_form import ACTIVITIES, CONCEPT, COST, DELAYS, EVENTS, GLOBAL, SCHEDULE, TIMES, TRIPS
from lintim_form import directed, finer, rows, told_cost, toy, windows, without
from mistakes import CONFIG, EDGE, LOAD, OD, POOL, STOP, Edit, add, all_of, put, swap

pytestmark = pytest.mark.usefixtures("lintim")
KEPT = "judge: kept: concept, timetable, vehicle schedule"
BEST = "judge: concept: kept; it costs 64.8; the least is 56.6, proved: 14.5 % more"
TWICE = "judge: concept: kept; it costs 129.6; the least is 113.2, proved: 14.5 % more"


def convert(*words: object) -> Ended:
    """The command within this process, which spares the time of its start."""
    out, err = io.StringIO(), io.StringIO()
    before = [signal.getsignal(it) for it in (signal.SIGINT, signal.SIGTERM)]
    hook = sys.unraisablehook
    try:
        with contextlib.redirect_stdout(out), contextlib.redirect_stderr(err):
            status = manners.main("lintim-convert", [*map(str, words)])
    except SystemExit as end:
        status = int(str(end.code))
    finally:
        for number, old in zip((signal.SIGINT, signal.SIGTERM), before):
            signal.signal(number, old)
        sys.unraisablehook = hook
    return Ended(status, out.getvalue().encode(), err.getvalue().encode())


def files_of(folder: Path) -> dict[str, tuple[bytes, int]]:
    """The bytes of all files, and when they were changed."""
    return {
        str(path): (path.read_bytes(), path.stat().st_mtime_ns)
        for path in folder.rglob("*")
        if path.is_file()
    }


def taken(folder: Path, new: Path, *words: object) -> list[str]:
    """What `in` says; the folder is not changed, and `lintim make` and `check` take the new one."""
    before = files_of(folder.parents[1])
    ended = convert("in", folder, new, *words)
    assert (ended.status, ended.err) == (0, []), ended.err
    assert files_of(folder.parents[1]) == before
    assert program.run(new, "make").last == "done"
    assert program.run(new, "check").last == "checked"
    return ended.out


def judged(folder: Path, status: int = 0, *words: object) -> list[str]:
    """What `judge` says; the folder is not changed."""
    before = files_of(folder.parents[1])
    ended = convert("judge", folder, *words)
    assert (ended.status, ended.err) == (status, []), ended.err
    assert files_of(folder.parents[1]) == before
    return ended.out


def test_a_folder_of_lintim_is_taken_whole(tmp_path: Path) -> None:
    folder, new = toy(tmp_path / "there"), tmp_path / "here"
    says = taken(folder, new)
    assert "in: pinned: concept, timetable, vehicles" in says
    assert "taken: 48 of 48 periodic events are found here" in says
    assert "taken: 20 of 20 trips are found here" in says
    assert "lost or weaker: 3 in all" in says
    report = program.run(new, "make")
    assert report.line_of("concept") == "concept: cost 64.8, not proved optimal, pinned"
    assert report.line_of("vehicles").startswith("vehicles: 9 vehicles, cost 900")
    assert "delay-management/Event-delays.giv" in {
        str(path.relative_to(new)) for path in new.rglob("*")
    }


def test_a_second_reader_comes_to_the_same(tmp_path: Path) -> None:
    folder, new = toy(tmp_path / "there"), tmp_path / "here"
    says = taken(folder, new) + judged(folder)
    assert second_reader.customers(folder) == 272
    assert "taken: 25 rows of demand, 272 customers" in says
    assert second_reader.is_concept_kept(folder)
    assert second_reader.concept_cost(folder) == pytest.approx(told_cost(says, "concept"))
    assert second_reader.is_timetable_kept(folder, 60)
    slack = second_reader.weighted_slack(folder, 60)
    assert slack > 0 and second_reader.slack_here(folder, new, 60) == slack
    assert second_reader.vehicles(folder) * 100 == told_cost(says, "vehicle schedule")


def test_the_verdict_is_beside_proved_optima(tmp_path: Path) -> None:
    says = judged(toy(tmp_path / "there"))
    assert says[-4:] == [
        BEST,
        "judge: timetable: kept, 124 activities; lintim check says checked",
        "judge: vehicle schedule: kept; 9 vehicles, it costs 900; the least is 800, proved: 12.5 %"
        " more; lintim check says checked",
        KEPT,
    ]


def test_the_command_itself(tmp_path: Path) -> None:
    folder, new = toy(tmp_path / "there"), tmp_path / "here"
    ended = run("lintim-convert", "judge", folder)
    assert (ended.status, ended.out, ended.err) == (0, judged(folder), [])
    ended = run("lintim-convert", "in", folder, new)
    assert (ended.status, ended.err) == (0, [])
    assert run("lintim-convert", "in", folder, new).one_line().startswith("lintim-convert: ")


def test_where_the_search_is_spent_a_tree_proves_the_least(tmp_path: Path) -> None:
    folder = toy(tmp_path / "there", add(CONFIG, "concept_budget; 5\n"))
    assert BEST in judged(folder)


def test_the_program_would_remove_plans_of_such_a_folder(tmp_path: Path) -> None:
    folder = toy(tmp_path / "there")
    assert "include outside the dataset" in program.run(folder, "make").last
    assert not (folder / SCHEDULE).exists()


# Edits after which everything is taken as before: the words that are told of each one.
SAME: dict[str, tuple[Edit, str]] = {
    "windows line ends": (windows, ""),
    "byte order marks": (swap(EDGE, "# edge", b"\xef\xbb\xbf# edge"), ""),
    "exponents": (
        all_of(swap(EDGE, "; 1.5; 3; 4", "; 15E-1; 3; 4"), swap(LOAD, "202.0", "2.02E2")),
        "",
    ),
    "whole numbers with a point": (swap(LOAD, "; 3; 6", "; 3.0; 6.0"), ""),
    "a concept without lines of frequency 0": (
        all_of(
            add(POOL, "5; 1; 5\n"),
            add(COST, "5; 2.1; 9.2\n"),
        ),
        "taken: 1 lines of the pool that the concept leaves out have the frequency 0",
    ),
    "no greatest frequency": (
        rows(LOAD, lambda it: it[:3] + ["2147483647"]),
        "taken: 5 maximal frequencies above 1000 are 1000 here",
    ),
    "no state config": (swap(CONFIG, 'include_if_exists; "State-Config.cnf"\n', ""), ""),
    "time beyond the period": (
        rows(TIMES, lambda it: [it[0], str(int(it[1]) + 60)]),
        "taken: 48 times are taken modulo the period of 60",
    ),
    "other names of delays": (
        lambda folder: (folder / DELAYS).rename(folder / "delay-management/Event-delays.giv"),
        "taken: 2 delays of events from delay-management/Event-delays.giv",
    ),
    "a wider day": (
        add(CONFIG, "DM_latest_time; 82800\n"),
        "taken: the day goes from minute 360 to 450, with just the trips of LinTim",
    ),
    "kinds in capitals": (swap(ACTIVITIES, '"drive"', '"DRIVE"', 99), ""),
    "later rows win": (add(CONFIG, "include; Last.cnf\nlpool_costs_fixed; 5\n"), ""),
    "directed with pairs": (
        directed,
        "taken: 10 directed edges are 5 edges that are driven both ways",
    ),
}


@pytest.mark.parametrize("name", SAME)
def test_other_spellings_come_to_the_same(name: str, tmp_path: Path) -> None:
    edit, word = SAME[name]
    folder = toy(tmp_path / "there", edit)
    if name == "later rows win":
        put("basis/Last.cnf", "lpool_costs_fixed; 77\n")(folder)
    says = taken(folder, tmp_path / "here")
    assert "in: pinned: concept, timetable, vehicles" in says, says
    assert not word or word in says, says
    assert says[-1].startswith("in: written to ")
    verdict = judged(folder)
    best = BEST if name != "directed with pairs" else TWICE
    assert verdict[-1] == KEPT and best in verdict, verdict
    assert not any("by LinTim's costs" in line for line in verdict)


# Edits after which something is lost or weaker, with what is told of it.
WEAKER: dict[str, tuple[Edit, str]] = {
    "no Global-Config": (
        without(GLOBAL),
        "lost or weaker: keys that no file has, which are as lintim has them:"
        " gen_passengers_per_vehicle (70), lpool_costs_edges (0), period_length (60),"
        " ean_default_minimal_waiting_time (1), ean_default_maximal_waiting_time (3),"
        " vs_turn_over_time (5), vs_vehicle_costs (100)",
    ),
    "ten units a minute": (
        finer,
        "lost or weaker: a minute has 10 time units, and a time unit of LinTim is one minute here:"
        " read each minute of a report as a 10th of one",
    ),
    "costs of its own": (
        swap(COST, "1; 3.1; 11.2", "1; 3.1; 12.5"),
        "lost or weaker: basis/Pool-Cost.giv: costs of lines are made of three keys here, and 1 of"
        " 4 differ: line 1 costs 12.5, here 11.2",
    ),
    "loads that are not those of demand": (
        swap(LOAD, "4; 105.0; 2; 5", "4; 150.0; 1; 6"),
        "taken: loads of 1 of 5 edges are not those of the demand: edge 4 has 150 customers and 1"
        " to 6 drives, and of the demand 105 customers and 2 to 5 drives",
    ),
    "costs that no key can be": (
        all_of(directed, add(CONFIG, "lpool_costs_fixed; 900000\n")),
        "lost or weaker: lpool_costs_fixed would be twice as much, since a line stands for two: it"
        " is not",
    ),
    "keys of LinTim alone": (
        add(CONFIG, "gen_vehicle_speed; 50\nload_generator_type; LOAD_FROM_PTN\n"),
        "lost or weaker: 9 keys of LinTim that nothing here reads: ",
    ),
    **{
        f"a file of {name}": (
            put(f"basis/{name}.giv", "1; 1\n"),
            f"lost or weaker: basis/{name}.giv is read by nothing here",
        )
        for name in ("Terminals", "Depot", "Station-Limits")
    },
    "headways by edge": (
        put("basis/Headway.giv", "# edge-id; headway\n1; 3\n"),
        "lost or weaker: basis/Headway.giv is read by nothing here",
    ),
    "waits by stop": (
        rows(ACTIVITIES, lambda it: it[:4] + ["1", "9", it[6]] if it[0] == "4" else it),
        f"lost or weaker: 1 wait activities have other bounds: activity 4 takes 1 to 9, here 1 to"
        " 3",
    ),
    "turnarounds": (
        add(ACTIVITIES, '85; "turnaround"; 21; 1; 5; 20; 0\n'),
        "lost or weaker: 1 turnaround activities are in LinTim alone: the first is 85",
    ),
    "an event more": (
        add(EVENTS, '900; "departure"; 1; 77; 0; >; 1\n'),
        "lost or weaker: periodic events that one of both has: 1 of LinTim, 0 here",
    ),
    "no time of an event": (
        rows(TIMES, lambda it: None if it[0] == "9" else it),
        "lost or weaker: the timetable is not taken: 1 of 48 events here have no time:",
    ),
    "events without directions": (
        rows(EVENTS, lambda it: it[:5]),
        "lost or weaker: not taken: timetabling/Events-periodic.giv row 2: wrong number of fields",
    ),
    "a trip less": (
        rows(TRIPS, lambda it: None if it[0] == "4" else it),
        "lost or weaker: trips that one of both days has: 0 of LinTim, 1 here; the first here:",
    ),
    "a vehicle less": (
        rows(SCHEDULE, lambda it: None if it[0] == "2" else it),
        "lost or weaker: the vehicle schedule is not taken: 0 trips are not here, 0 are driven"
        " twice,",
    ),
    "delays of another day": (
        add(DELAYS, "777; 60\n"),
        "lost or weaker: 1 delays of events that are not of the day here are left out",
    ),
    "no pool": (
        without(POOL),
        "lost or weaker: basis/Pool.giv is not there: the lines of the concept are the pool",
    ),
    "another pool": (
        all_of(swap(POOL, "1; 2; 2\n", "")),
        "lost or weaker: the concept is not taken: line 1 is other edges than in the pool",
    ),
    "no config": (
        without(CONFIG),
        "lost or weaker: basis/Config.cnf is not there, so each key is what lintim has where no row"
        " is",
    ),
    "no demand": (without(OD), "lost or weaker: basis/OD.giv is not there, so nobody travels"),
    "doubles of Java": (
        swap(EDGE, "; 1.6; 4", "; 1.6000000000000001; 4"),
        "lost or weaker: basis/Edge.giv: 1 numbers have more than six digits after the point: cut",
    ),
    "a concept that is not kept": (
        swap(LOAD, "; 1; 4", "; 3; 4"),
        "lost or weaker: the concept is not kept here, so pin_concept is no: edge 5 is driven 1"
        " times, 3 to 4 are wanted",
    ),
}


@pytest.mark.parametrize("name", WEAKER)
def test_what_is_lost_or_weaker_is_told(name: str, tmp_path: Path) -> None:
    edit, word = WEAKER[name]
    folder = toy(tmp_path / "there", edit)
    says = taken(folder, tmp_path / "here")
    assert any(line.startswith(word) for line in says), says
    lost = [line for line in says if line.startswith("lost or weaker: ")]
    assert lost[-1] == f"lost or weaker: {len(lost) - 1} in all"


# Folders that are refused, with how the line ends or begins.
REFUSED: dict[str, tuple[Edit, str]] = {
    "no edges": (without(EDGE), "is no whole dataset of LinTim: basis/Edge.giv is missing"),
    "no stops": (without(STOP), "is no whole dataset of LinTim: basis/Stop.giv is missing"),
    "a ring of includes": (
        all_of(
            put("../Global-Config.cnf", "include; Other.cnf\n"),
            put("../Other.cnf", "include; Global-Config.cnf\n"),
        ),
        "Global-Config.cnf includes itself: Global-Config.cnf includes Other.cnf includes"
        " Global-Config.cnf; take one include out",
    ),
    "a config that includes itself": (
        add(CONFIG, "include; Config.cnf\n"),
        "Config.cnf includes itself: Config.cnf includes Config.cnf; take one include out",
    ),
    "a network that is directed for real": (
        all_of(directed, rows(EDGE, lambda it: None if it[0] == "15" else it)),
        "basis/Edge.giv: the network is directed, and edge 5 has no opposite one of equal length"
        " and bounds (1 of 9)",
    ),
    "an opposite edge with other bounds": (
        all_of(directed, swap(EDGE, "15; 4; 3; 2.1; 6; 8", "15; 4; 3; 2.1; 6; 9")),
        "basis/Edge.giv: the network is directed, and edge 5 has no opposite one",
    ),
    "a line without its opposite": (
        all_of(directed, rows(POOL, lambda it: None if it[0] == "13" else it), without(CONCEPT)),
        "basis/Pool.giv: the network is directed, and line 3 has no opposite one",
    ),
    "opposite lines with other frequencies": (
        all_of(directed, rows(CONCEPT, lambda it: it[:3] + ["2"] if it[0] == "13" else it)),
        "line-planning/Line-Concept.lin: the opposite lines 3 and 13 are driven 1 and 2 times",
    ),
    "stops by letters": (
        swap(STOP, "1; ", "A; "),
        "basis/Stop.giv row 2: column 1 is not a number (stop-id is 'A', wanted whole 1 to"
        " 1000000000); ids are whole numbers here: number them",
    ),
    "edges between stops by letters": (
        swap(EDGE, "1; 1; 2;", "1; A; 2;"),
        "basis/Edge.giv row 2: column 2 is not a number",
    ),
    "metres": (
        swap(EDGE, "; 1.5; 3; 4", "; 15000; 3; 4"),
        "basis/Edge.giv row 2: column 4 is out of range",
    ),
    "a length of 0": (
        swap(EDGE, "; 1.5; 3; 4", "; 0; 3; 4"),
        "lintim make says of the new dataset: refused: basis/Edge.giv row 2: zero bound (`1; 1; 2;"
        " 0; 3; 4`)",
    ),
    "two edges of one id": (swap(EDGE, "2; 2; 3;", "1; 2; 3;"), "2 edges have the id 1"),
    "a period of 3600": (
        add(CONFIG, "period_length; 3600\n"),
        "basis/Config.cnf row 13: period_length is out of range: '3600'",
    ),
    "no number of units": (
        add(CONFIG, "time_units_per_minute; x\n"),
        "time_units_per_minute is 'x'",
    ),
    "neither true nor false": (add(CONFIG, "ptn_is_undirected; perhaps\n"), "ptn_is_undirected is"),
    "waits that cross": (
        add(CONFIG, "ean_default_maximal_waiting_time; 0\n"),
        "value of ean_default_maximal_waiting_time",
    ),
    "two frequencies": (
        swap(CONCEPT, "1; 2; 2; 2", "1; 2; 2; 3"),
        "line-planning/Line-Concept.lin: line 1 has two frequencies, 2 and 3",
    ),
    "an edge that is not there": (swap(POOL, "1; 2; 2", "1; 2; 77"), "line 1 goes over edge 77"),
    "half a row": (swap(EDGE, "1; 1; 2; 1.5", "1; 1"), "basis/Edge.giv row 2: wrong number of"),
    "no load of an edge": (swap(LOAD, "5; ", "#"), "basis/Load.giv has no row of edge 5"),
}


@pytest.mark.parametrize("name", REFUSED)
def test_a_folder_is_refused_with_reason_and_remedy(name: str, tmp_path: Path) -> None:
    edit, word = REFUSED[name]
    folder, new = toy(tmp_path / "there", edit), tmp_path / "here"
    before = files_of(tmp_path)
    for words in (("in", folder, new), ("judge", folder)):
        ended = convert(*words)
        assert ended.status == 1 and not ended.out
        assert word in ended.one_line()
        assert files_of(tmp_path) == before and not new.exists()


def test_200000_rows_of_demand(tmp_path: Path) -> None:
    many = "".join(f"{a % 5 + 1}; {a // 5 % 5 + 1}; 1\n" for a in range(200_000))
    folder = toy(tmp_path / "there", put(OD, many))
    says = taken(folder, tmp_path / "here")
    assert "taken: 40000 rows of demand of nobody or to the same stop are out" in says
    assert "lost or weaker: 160000 rows of demand stay, and lintim takes 100000 where it reads" in (
        "\n".join(says)
    )
    (folder / LOAD).unlink()
    line = convert("in", folder, tmp_path / "other").one_line()
    assert (
        "basis/OD.giv has 160000 rows with customers, and lintim takes 100000: let LinTim" in line
    )
    put(OD, many.replace("; 1\n", "; 0\n") + "1; 5; 30\n")(folder)
    says = taken(folder, tmp_path / "third")
    assert "taken: 200000 rows of demand of nobody or to the same stop are out" in says


def test_many_lines_want_a_word(tmp_path: Path) -> None:
    pool = "".join(f"{line}; 1; {line % 5 + 1}\n" for line in range(10, 300))
    folder = toy(tmp_path / "there", add(POOL, pool))
    line = convert("in", folder, tmp_path / "here").one_line()
    assert "294 lines, and lintim takes 200: with --driven only the lines that" in line
    says = taken(folder, tmp_path / "here", "--driven")
    assert "lost or weaker: only the 4 lines that are driven are taken, of 294" in says
    assert judged(folder, 0, "--driven")[-1] == KEPT


# Plans that are not kept, with the lines of the verdict.
BROKEN: dict[str, tuple[Edit, tuple[str, ...]]] = {
    "a concept": (
        swap(LOAD, "; 1; 4", "; 3; 4"),
        (
            "judge: concept: not kept: lintim says refused: pinned/Line-Concept.lin row 0: not"
            " feasible",
            "judge: concept: edge 5 is driven 1 times, from 3 to 4 wanted",
            "judge: kept: timetable, vehicle schedule; not kept: concept",
        ),
    ),
    "a concept of directed lines": (
        all_of(directed, swap(LOAD, "15; 20.0; 1; 4", "15; 20.0; 3; 4")),
        ("judge: concept: edge 5 and 15 is driven 1 times, from 3 to 4 wanted",),
    ),
    "a timetable": (
        rows(TIMES, lambda it: [it[0], str((int(it[1]) + 9) % 60)] if it[0] == "9" else it),
        (
            "judge: timetable: not kept: lintim says refused: pinned/Timetable-periodic.tim row 0:"
            " not feasible",
            "judge: kept: concept; not kept: timetable; not judged: vehicle schedule",
        ),
    ),
    "a schedule": (
        all_of(add(CONFIG, "vs_turn_over_time; 30\n")),
        (
            "judge: vehicle schedule: not kept: lintim says refused: pinned/Vehicle_Schedules.vs"
            " row 0: cannot follow",
            "judge: kept: concept, timetable; not kept: vehicle schedule",
        ),
    ),
    "an activity of LinTim alone": (
        add(ACTIVITIES, '85; "turnaround"; 21; 1; 59; 59; 0\n'),
        (
            "judge: timetable: LinTim's own activities want more, so this is of a weaker problem",
            "judge: kept: concept, vehicle schedule; not kept: timetable",
        ),
    ),
}


@pytest.mark.parametrize("name", BROKEN)
def test_the_first_thing_that_is_not_kept_is_told_in_ids_of_lintim(
    name: str, tmp_path: Path
) -> None:
    edit, words = BROKEN[name]
    says = judged(toy(tmp_path / "there", edit), 1)
    for word in words:
        assert word in says, says


def test_the_first_broken_activity_is_that_of_the_second_reader(tmp_path: Path) -> None:
    folder = toy(tmp_path / "there", BROKEN["a timetable"][0])
    by = second_reader.slacks(folder, 60)
    broken = by[by.slack > by.high - by.low]
    line = next(it for it in judged(folder, 1) if "of LinTim's own activities" in it)
    first = broken.iloc[0]
    assert f"own activities {len(broken)} are broken, which nothing proves; the first:" in line
    assert f"activity {first.id}, {first.type} from event {first['first']} to event" in line
    assert f"takes {first.low + first.slack}, and {first.low} to {first.high} are allowed" in line


def test_parts_that_are_not_there_are_not_judged(tmp_path: Path) -> None:
    folder = toy(tmp_path / "there", without(SCHEDULE))
    assert judged(folder)[-1] == "judge: kept: concept, timetable; not judged: vehicle schedule"
    (folder / EVENTS).unlink()
    assert judged(folder)[-1] == "judge: kept: concept; not judged: timetable"
    (folder / CONCEPT).unlink()
    assert judged(folder)[-1] == "judge: not judged: concept"


def test_a_target_is_new_and_elsewhere(tmp_path: Path) -> None:
    folder = toy(tmp_path / "there")
    full = tmp_path / "full"
    put("basis/Stop.giv", "mine\n")(full)
    for what in ("in", "out"):
        before = files_of(tmp_path)
        line = convert(what, folder, full).one_line()
        assert line.endswith(f"is not empty: {what} writes a new dataset, into a new folder")
        line = convert(what, folder, folder / "new").one_line()
        assert line.endswith("which is not changed: name a folder beside it")
        assert files_of(tmp_path) == before


@pytest.mark.parametrize(
    "words",
    [
        ["in", "."],
        ["out", "."],
        ["judge", ".", "x"],
        ["to", ".", "x"],
        ["out", ".", "x", "--driven"],
    ],
)
def test_words_that_do_not_go_together(words: list[str]) -> None:
    ended = convert(*words)
    assert ended.status == 2 and ended.one_line().endswith("see lintim-convert --help")


def test_a_folder_that_is_none_is_one_line(tmp_path: Path) -> None:
    assert convert("judge", tmp_path / "none").one_line().endswith("none: no such folder")
    assert convert("judge", tmp_path).one_line().endswith("it has no folder basis")


def test_units_and_seconds(tmp_path: Path) -> None:
    folder = toy(tmp_path / "there", finer)
    new = tmp_path / "here"
    says = taken(folder, new)
    assert "in: pinned: concept, timetable, vehicles" in says
    text = (new / "basis/Config.cnf").read_text()
    assert "period_length; 600\n" in text and "DM_earliest_time; 3600\n" in text
    assert (new / "delay-management/Event-delays.giv").read_text().endswith("; 25\n") or (
        "; 25\n" in (new / "delay-management/Event-delays.giv").read_text()
    )
    assert judged(folder)[-1] == KEPT


def test_a_day_that_is_too_long_is_cut(tmp_path: Path) -> None:
    folder = toy(tmp_path / "there", all_of(finer, add(CONFIG, "DM_latest_time; 82800\n")))
    says = convert("in", folder, tmp_path / "here").out
    assert (
        "lost or weaker: DM_latest_time would be 13800 minutes here, and 10080 is the most: it is"
        " cut"
    ) in says


def test_ids_lead_back(tmp_path: Path) -> None:
    folder, new = toy(tmp_path / "there", directed), tmp_path / "here"
    taken(folder, new)
    ids = [row.split(",") for row in (new / "import/ids.csv").read_text().splitlines()]
    assert ids[0] == ["kind", "id", "lintim_id", "direction"]
    assert ["edge", "5", "15", "<"] in ids and ["line", "3", "13", "<"] in ids
    counts = {kind: sum(row[0] == kind for row in ids) for kind in {row[0] for row in ids[1:]}}
    assert counts["periodic event"] == 48 and counts["periodic activity"] == 84
    assert counts["trip"] == 20 and counts["event of the day"] == 96
    events = {row[2]: row[1] for row in ids if row[0] == "periodic event"}
    for row in (folder / TIMES).read_text().splitlines()[1:]:
        event, time = row.split("; ")
        assert f"\n{events[event]}; {time}\n" in (new / "pinned/Timetable-periodic.tim").read_text()


def spoiled(place: Path, seed: int) -> Path:
    """The folder of LinTim with files spoiled by a number."""
    chance = random.Random(f"of LinTim {seed}")
    folder = toy(place)
    names = [it for it in sorted(place.rglob("*")) if it.is_file()]
    for _ in range(chance.choice((1, 1, 2, 4))):
        path = chance.choice(names)
        path.write_bytes(chance.choice(hostile.KINDS)(chance, path.read_bytes()))
    if chance.random() < 0.2:
        chance.choice(names).unlink()
    return folder


def see_spoiled(seed: int, place: Path) -> None:
    """Sees that nothing is changed, and that each end is one line, or a dataset that can be made."""
    folder, new = spoiled(place / "there", seed), place / "here"
    before = files_of(place)
    ended = convert("judge", folder, "--seconds", 5)
    assert files_of(place) == before
    lines = [ended, convert("in", folder, new)]
    assert {name: it for name, it in files_of(place).items() if name in before} == before
    for it in lines:
        assert it.status in (0, 1) and len(it.err) <= 1, (seed, it.err)
        assert not any("a fault of this command" in line for line in it.err), (seed, it.err)
        assert it.out or it.err
    if lines[1].status == 0:
        report = program.run(new, "make")
        assert report.status in (0, 3, 4, 5) and " column " not in report.last, (seed, report.last)


@pytest.mark.parametrize("seed", range(25))
def test_spoiled_folders(seed: int, tmp_path: Path) -> None:
    see_spoiled(seed, tmp_path)


@pytest.mark.long
@pytest.mark.parametrize("seed", range(25, 400))
def test_more_spoiled_folders(seed: int, tmp_path: Path) -> None:
    see_spoiled(seed, tmp_path)
