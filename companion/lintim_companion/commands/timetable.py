"""`lintim-timetable`: a periodic timetable that keeps all bounds, by CaDiCaL, or one that is good for
passengers, by local search and HiGHS."""

from argparse import Namespace

from .. import dataset, files, program
from ..faults import Refused, WrongWords
from ..formats import PERIODIC_ACTIVITIES, PERIODIC_EVENTS, PINNED_TIMETABLE
from ..manners import Deadline, Talk
from ..timetables.good import make_good
from ..timetables.problem import periodic_problem, timetable_rows
from ..timetables.solve import feasible


def run(words: Namespace, talk: Talk) -> int:
    """Finds times, and writes them."""
    is_good = bool(words.for_passengers or words.few_vehicles or words.weights)
    if is_good and words.changes is not None:
        raise WrongWords("--changes goes with none of the other words: no change is bounded there")
    if not is_good and words.change_penalty is not None:
        raise WrongWords("--change-penalty wants --for-passengers")
    data = dataset.read(words.folder)
    program.see_kept(words.folder, PERIODIC_EVENTS, PERIODIC_ACTIVITIES)
    files.see_writable(words.folder, PINNED_TIMETABLE.name)
    deadline = Deadline(words.seconds)
    if is_good:
        make_good(data, words, deadline, talk)
    else:
        _find_any(data, words, deadline, talk)
    if data.settings.pin_timetable == "no":
        talk.say("timetable: to use it, add the row `pin_timetable; yes` to basis/Config.cnf")
    return 0


def _find_any(data: dataset.Dataset, words: Namespace, deadline: Deadline, talk: Talk) -> None:
    """Finds times that keep all bounds, and writes them."""
    problem = periodic_problem(data, words.changes)
    talk.say(f"timetable: {problem.events} events, {len(problem.spans)} activities")
    times = feasible(problem, deadline, talk.progress)
    if times is None:
        raise Refused("no timetable keeps all bounds, CaDiCaL says")
    talk.write(words.folder, PINNED_TIMETABLE, timetable_rows(times))
    talk.say(f"timetable: found in {deadline.spent():.1f} s, written to {PINNED_TIMETABLE.name}")
