"""A timetable that keeps all bounds, by CaDiCaL."""

from .. import cadical
from ..faults import Refused
from ..manners import Deadline, Progress
from .clauses import Clauses
from .problem import PeriodicProblem


def feasible(problem: PeriodicProblem, deadline: Deadline, progress: Progress) -> list[int] | None:
    """A time for each event, so that all activities are within their bounds; none where CaDiCaL
    says that there are no such times. Raises `cadical.NoTime` where time is over."""
    clauses = Clauses(problem)
    values = cadical.solve(clauses.write, deadline, progress)
    if values is None:
        return None
    times = clauses.times(values)
    broken = problem.first_broken(times)
    if broken is not None:
        raise Refused(f"the times that CaDiCaL gave break activity {broken + 1}")
    return times
