"""`pesp-judge`, the proved judge of periodic timetables and of lower bounds, beside peers: brute
force, a second judge, and linear programs (`pesp_peer`)."""

import os
import random
import subprocess
from pathlib import Path

import pytest
from pesp_peer import (
    Activity,
    Problem,
    certificate,
    cycle_basis,
    random_problem,
    root_bound,
)

from lintim_companion import program


def find() -> Path | None:
    """The program: the one that PESP_JUDGE names, the one that was built here, or that of dist/."""
    named = os.environ.get("PESP_JUDGE")
    places = [
        program.CHECKOUT / "crates/pesp_program/out/pesp_program",
        program.CHECKOUT / "dist/pesp-judge",
    ]
    found = [Path(named)] if named else [it for it in places if os.access(it, os.X_OK)]
    return found[0] if found else None


pytestmark = pytest.mark.skipif(find() is None, reason="pesp-judge is not built here")


class Judge:
    """The program, run in a folder."""

    def __init__(self, folder: Path) -> None:
        self.folder = folder

    def put(self, name: str, text: str | bytes) -> None:
        """Writes a file."""
        data = text if isinstance(text, bytes) else text.encode()
        (self.folder / name).write_bytes(data)

    def run(self, *words: object) -> tuple[int, str]:
        """The exit status, and what is printed."""
        judge = find()
        assert judge is not None
        ended = subprocess.run(
            [judge, *map(str, words)], cwd=self.folder, capture_output=True, text=True, timeout=300
        )
        assert ended.stderr == ""
        return ended.returncode, ended.stdout

    def check(self, problem: Problem, times: dict[int, int]) -> tuple[int, str]:
        """What is said of times."""
        self.put("problem.csv", problem.rows())
        self.put("times.csv", "".join(f"{event}; {time}\n" for event, time in times.items()))
        return self.run("check", "problem.csv", "times.csv", problem.period)

    def bound(self, problem: Problem, text: str) -> tuple[int, str]:
        """What is said of a certificate."""
        self.put("problem.csv", problem.rows())
        self.put("bound.csv", text)
        return self.run("bound", "problem.csv", "bound.csv", problem.period)


@pytest.fixture
def judge(tmp_path: Path) -> Judge:
    return Judge(tmp_path)


def wanted(problem: Problem, times: dict[int, int]) -> tuple[int, str]:
    """What the second judge says of times, in the words of the first one."""
    said = problem.judged(times)
    if isinstance(said, int):
        count = len(problem.activities)
        return 0, f"kept: weighted slack {said}, {count} activities\n"
    number, minutes = said
    it = problem.activities[number - 1]
    where = f"row {number}: from {it.tail} to {it.head}"
    return 9, f"broken: {where} takes {minutes}, {it.lower} to {it.upper} allowed\n"


def see_networks(judge: Judge, seed: int, count: int) -> None:
    """Sees that times are judged as by the second judge, and that the least weighted slack of brute
    force can be certified, or that there is no timetable."""
    choice = random.Random(seed)
    for _ in range(count):
        problem = random_problem(choice, choice.choice([3, 4]), choice.choice([1, 2, 3]))
        times = {event: choice.randrange(problem.period) for event in problem.events}
        assert judge.check(problem, times) == wanted(problem, times)
        least = problem.least()
        text = certificate(problem, problem.greatest() + 1 if least is None else least)
        assert text is not None
        said = "there is no timetable" if least is None else f"no timetable has less than {least}"
        assert judge.bound(problem, text) == (0, said + "\n")


def test_answers_are_those_of_brute_force(judge: Judge) -> None:
    see_networks(judge, 20, 30)


@pytest.mark.long
def test_answers_are_those_of_brute_force_on_2000_networks(judge: Judge) -> None:
    see_networks(judge, 21, 2000)


def spoiled(choice: random.Random, text: str) -> str:
    """A certificate of which something is changed."""
    rows = text.splitlines()
    for _ in range(choice.choice([1, 1, 2, 3])):
        place = choice.randrange(len(rows))
        word, first, second = rows[place].split("; ")
        match choice.randrange(6):
            case 0:
                rows.insert(place, rows[choice.randrange(len(rows))])
            case 1 if len(rows) > 1:
                del rows[place]
            case 2:
                rows[place] = f"{word}; {int(first) + choice.choice([-1, 1])}; {second}"
            case 3:
                rows[place] = f"{word}; {first}; {int(second) + choice.choice([-1, 1, 10**6])}"
            case 4:
                rows[place] = f"{word}; {first}; {-int(second)}"
            case _:
                rows[place] = rows[place].replace("arc", "flip")
    return "\n".join(rows) + "\n"


def see_spoiled(judge: Judge, seed: int, count: int) -> None:
    """Sees that no certificate of a false claim passes, however it is spoiled."""
    choice = random.Random(seed)
    passed = 0
    for _ in range(count):
        problem = random_problem(choice, 3, 2)
        least = problem.least()
        claim = problem.greatest() + 1 if least is None else least
        text = certificate(problem, claim)
        assert text is not None
        for _ in range(10):
            status, said = judge.bound(problem, spoiled(choice, text))
            assert status in (0, 3, 9)
            if status == 0 and said != "there is no timetable\n":
                passed += 1
                assert least is None or int(said.split()[-1]) <= least
            elif status == 0:
                assert least is None
    assert passed


def test_spoiled_certificates_prove_nothing_false(judge: Judge) -> None:
    see_spoiled(judge, 30, 20)


@pytest.mark.long
def test_ten_thousand_spoiled_certificates_prove_nothing_false(judge: Judge) -> None:
    see_spoiled(judge, 31, 1000)


def large(choice: random.Random, events: int, activities: int) -> tuple[Problem, dict[int, int]]:
    """A problem of the size and form of PESPlib, and a timetable of it: lines of drives and waits,
    and changes between them with all minutes of the period."""
    times = {event: choice.randrange(60) for event in range(1, events + 1)}
    rows = []
    for tail in range(1, events):
        lower = (times[tail + 1] - times[tail]) % 60 - choice.randrange(3)
        lower += 60 if lower < 0 else 0
        rows.append(Activity(tail, tail + 1, lower, lower + choice.choice([2, 3, 5, 8]), 100))
    while len(rows) < activities:
        tail, head = choice.sample(range(1, events + 1), 2)
        rows.append(Activity(tail, head, 5, 64, choice.randrange(1, 10_000)))
    return Problem(60, rows), times


def test_a_problem_of_the_size_of_pesplib(judge: Judge) -> None:
    problem, times = large(random.Random(40), 8384, 17754)
    assert judge.check(problem, times) == wanted(problem, times)
    event = problem.activities[0].head
    off = {**times, event: (times[event] + 30) % 60}
    assert judge.check(problem, off) == wanted(problem, off)


@pytest.mark.parametrize("seed", range(4))
def test_cuts_show_no_more_than_highs(judge: Judge, seed: int) -> None:
    choice = random.Random(seed)
    problem, _ = large(choice, 12 + 5 * seed, 30 + 12 * seed)
    claim, value, text = root_bound(problem)
    assert judge.bound(problem, text) == (0, f"no timetable has less than {claim}\n")
    assert claim - 1 < value + 1e-6


@pytest.mark.long
@pytest.mark.parametrize("seed", range(4, 44))
def test_cuts_show_no_more_than_highs_on_40_problems(judge: Judge, seed: int) -> None:
    test_cuts_show_no_more_than_highs(judge, seed)


ROUND = "1; 1; 2; 3; 5; 5\n2; 2; 3; 2; 2; 1\n3; 3; 1; 4; 4; 1\n"
TIMES = "1; 0\n2; 4\n3; 6\n"
BOUND = "claim; 5; 9\ncycle; 1; 0\narc; 1; 1\narc; 2; 1\narc; 3; 1\nleaf; 0; 0\ncut; 1; 5\n"
REFUSED = [
    ("problem.csv", "", 3, "times.csv row 1: has an event of no activity"),
    (
        "problem.csv",
        "1; 1; 2; 3; 5\n",
        3,
        "problem.csv row 1: wants index; from; to; lower; upper;",
    ),
    ("problem.csv", "1; 1; 2; 6; 5; 5\n", 3, "problem.csv row 1: wants 0 <= lower <= upper"),
    ("problem.csv", ROUND + "4; 1; 2; 0; 9; x\n", 3, "problem.csv row 4: wants whole numbers"),
    ("problem.csv", "1; 1; 99999999999999999999; 3; 5; 5\n", 3, "row 1: wants whole numbers"),
    ("problem.csv", ";" * 1_000_000, 3, "problem.csv row 1: wants index; from;"),
    ("problem.csv", b"\xff\xfe\x00" * 1000, 3, "problem.csv row 1: wants index; from;"),
    ("problem.csv", b"\xef\xbb\xbf1;1;2;3;5;5\n", 3, "row 1: begins with a byte order mark"),
    ("times.csv", TIMES[:-6], 3, "times.csv: has no time for some event"),
    ("times.csv", TIMES + TIMES, 3, "times.csv row 4: has an event that has a time already"),
    ("times.csv", TIMES.replace("6", "10"), 3, "times.csv row 3: has a time outside of the period"),
    ("bound.csv", "", 3, "bound.csv: wants claim; S; D"),
    ("bound.csv", BOUND.replace("9", "0"), 3, "bound.csv row 1: wants from 1 to 10^9 parts of one"),
    ("bound.csv", BOUND.replace("leaf", "tree"), 3, "bound.csv row 6: wants cycle, arc, flip,"),
    ("bound.csv", BOUND + BOUND, 3, "bound.csv row 8: wants cycle, arc, flip,"),
    ("bound.csv", BOUND[:-10], 9, "uncertified: row 6: this leaf shows less than the claim"),
    ("bound.csv", BOUND + "leaf; 0; 0\n", 9, "uncertified: row 8: such a row does not stand here"),
    ("bound.csv", BOUND.replace("claim; 5", "claim; 6"), 9, "uncertified: row 6: this leaf shows"),
]


@pytest.mark.parametrize("name, text, status, says", REFUSED, ids=range(len(REFUSED)))
def test_what_is_refused(
    judge: Judge, name: str, text: str | bytes, status: int, says: str
) -> None:
    judge.put("problem.csv", ROUND)
    judge.put("times.csv", TIMES)
    judge.put("bound.csv", BOUND)
    judge.put(name, text)
    ended, said = judge.run("problem.csv", "times.csv", "bound.csv", 10)
    assert ended == status and says in said, said


def test_both_at_once_and_commas(judge: Judge) -> None:
    judge.put("problem.csv", ROUND.replace("; ", ","))
    judge.put("times.csv", TIMES.replace("; ", "\t"))
    judge.put("bound.csv", BOUND)
    status, said = judge.run("problem.csv", "times.csv", "bound.csv", 10)
    lines = [
        "kept: weighted slack 5, 3 activities",
        "no timetable has less than 5",
        "the times are best",
    ]
    assert (status, said.splitlines()) == (0, lines)
    judge.put("bound.csv", BOUND.replace("claim; 5", "claim; 3"))
    assert judge.run("problem.csv", "times.csv", "bound.csv", 10)[1].endswith("\napart: 2\n")


@pytest.mark.parametrize("words", [(), ("check", "a"), ("check", "a", "b", "0"), ("a", "b")])
def test_words_that_are_no_command(judge: Judge, words: tuple[str, ...]) -> None:
    status, said = judge.run(*words)
    assert status == 2 and said.startswith("usage: pesp-judge check INSTANCE TIMES [PERIOD]\n")


def test_a_file_that_is_missing(judge: Judge) -> None:
    assert judge.run("check", "a", "b") == (3, "refused: a is missing\n")


@pytest.mark.long
@pytest.mark.parametrize("part", [b";", b"#", b"1;1;2;3;5;5\n"], ids=["signs", "remark", "rows"])
def test_texts_of_64_mib(judge: Judge, part: bytes) -> None:
    judge.put("problem.csv", part * ((1 << 26) // len(part)))
    judge.put("times.csv", TIMES)
    status, said = judge.run("check", "problem.csv", "times.csv")
    assert status == 3 and said.startswith("refused: ")


@pytest.mark.skipif("PESPLIB" not in os.environ, reason="PESPLIB names no folder of real instances")
def test_real_instances_are_read(judge: Judge) -> None:
    """Reads each file of a folder of PESPlib, and gives all events the time 0."""
    for path in sorted(Path(os.environ["PESPLIB"]).iterdir()):
        judge.put("problem.csv", path.read_bytes())
        judge.put("times.csv", "")
        status, said = judge.run("check", "problem.csv", "times.csv")
        assert (status, said) == (3, "refused: times.csv: has no time for some event\n"), path


def test_a_basis_closes_each_cycle() -> None:
    choice = random.Random(50)
    for _ in range(50):
        problem = random_problem(choice, 4, 4)
        for cycle in cycle_basis(problem):
            ends = [problem.activities[it.activity][:2][:: it.sign] for it in cycle]
            assert all(one[1] == next_[0] for one, next_ in zip(ends, [*ends[1:], ends[0]]))
