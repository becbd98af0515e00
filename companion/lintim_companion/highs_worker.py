"""The process in which HiGHS runs, as a script of its own: a problem comes on the standard input, the
log goes to the standard output, and answers to the pipe that is named, one for each time limit."""

import ctypes
import pickle
import signal
import sys
from multiprocessing.connection import Connection
from typing import Any

import numpy
from scipy.optimize import Bounds, LinearConstraint, milp
from scipy.sparse import csr_matrix

DIES_WITH_ITS_PARENT = 1  # what prctl calls PR_SET_PDEATHSIG


def main(pipe: int) -> None:
    """Runs HiGHS with each limit in turn, until it ends by itself."""
    ctypes.CDLL(None).prctl(DIES_WITH_ITS_PARENT, signal.SIGKILL)
    answers = Connection(pipe, readable=False)
    problem, limits = pickle.load(sys.stdin.buffer)
    for limit in limits:
        answer = solved(problem, limit)
        answers.send(answer)
        if not answer[3]:
            break


def solved(problem: tuple[Any, ...], seconds: float) -> tuple[Any, ...]:
    """One run of HiGHS: what `highs.Answer` holds."""
    costs, low, high, is_whole, cells, least, most, _ = problem
    sums = []
    if least:
        rows, columns, values = zip(*cells) if cells else ((), (), ())
        shape = (len(least), len(costs))
        matrix = csr_matrix((numpy.array(values, dtype=float), (rows, columns)), shape=shape)
        sums = [LinearConstraint(matrix, least, most)]
    got = milp(
        costs,
        integrality=numpy.array(is_whole, dtype=int),
        bounds=Bounds(low, high),
        constraints=sums,
        options={"time_limit": seconds, "mip_rel_gap": 0, "disp": True},
    )
    values = None if got.x is None else [float(value) for value in got.x]
    bound = getattr(got, "mip_dual_bound", None)
    says = got.status == 0, got.status == 2, got.status == 1, str(got.message)
    return values, *says, None if bound is None else float(bound)


if __name__ == "__main__":
    main(int(sys.argv[1]))
