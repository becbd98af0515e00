"""Why there is no line concept, and what would give one."""

from .. import dataset
from ..cells import MILLION
from ..formats import GIVEN_LOADS, LOADS, POOL, Load
from ..line_concepts.problem import LineProblem, ProblemLine, line_problem
from .context import Context
from .elastic import NoTime, bare_edges, is_feasible, least_capacity, least_excess, least_spread
from .findings import Finding, add_rows, both, call, either, finding, write_line
from .texts import replaced

MOST_TOLD = 8


def no_concept(it: Context) -> Finding:
    """Why there is none: edges without lines, or edges that would be driven too often."""
    problem = line_problem(dataset.read(it.copy.folder))
    bare = bare_edges(problem)
    return _bare(it, problem, bare) if bare else _too_often(it, problem)


def spent(it: Context) -> Finding:
    """A search that ended without a concept: HiGHS says whether there is one."""
    problem = line_problem(dataset.read(it.copy.folder))
    bare = bare_edges(problem)
    if bare:
        return _bare(it, problem, bare)
    try:
        if not is_feasible(problem, it.deadline):
            return _too_often(it, problem)
        says = "there is a concept, HiGHS says, and the search of lintim ended before it"
    except NoTime:
        says = "HiGHS cannot tell in time whether there is a concept"
    return finding(says, remedy=by_command(it), file=POOL.name)


def by_command(it: Context) -> str:
    """The concept by the command of the package, and the key with which it is taken."""
    return both(call("lintim make; lintim-concept ."), it.set_key("pin_concept", "yes"))


def _loads(it: Context) -> list[Load]:
    return dataset.read_file(it.copy.folder, LOADS).rows


def _bare(it: Context, problem: LineProblem, bare: list[int]) -> Finding:
    """Edges that are to be driven and that no line goes over."""
    loads = _loads(it)
    told = [
        f"{it.names.edge(loads[at].edge_id)} is to be driven {_times(loads[at].minimal_frequency)},"
        f" and no line goes over it"
        for at in bare[:MOST_TOLD]
    ]
    if len(bare) > MOST_TOLD:
        told.append(f"and so are {len(bare) - MOST_TOLD} edges more")
    lines = _joined(it, problem, bare)
    first = max(it.names.pool, default=0) + 1
    rows = [
        f"{first + number}; {order}; {problem.edges[at].id}"
        for number, line in enumerate(lines)
        for order, at in enumerate(line, 1)
    ]
    wider = LineProblem(problem.edges, problem.lines + [ProblemLine(0, 0, line) for line in lines])
    try:
        more = [] if is_feasible(wider, it.deadline) else _keys(it, wider)
    except NoTime:
        more = []
    remedy = both(add_rows(POOL.name, *rows), *more[:1])
    return finding(*told, remedy=remedy, file=POOL.name)


def _times(count: int) -> str:
    return "once" if count == 1 else f"{count} times"


def _joined(it: Context, problem: LineProblem, bare: list[int]) -> list[list[int]]:
    """Lines over the edges that no line has: edges that join end to end and may be driven equally
    often are one line."""
    left, lines = [*bare], []
    while left:
        line = [left.pop(0)]
        edge = it.names.edges[problem.edges[line[0]].id]
        seen = {edge.left_stop, edge.right_stop}
        for forward in (True, False):
            at = edge.right_stop if forward else edge.left_stop
            while True:
                following = _next(it, problem, line, left, at, seen)
                if following is None:
                    break
                other, at = following
                left.remove(other)
                seen.add(at)
                line = line + [other] if forward else [other] + line
        lines.append(line)
    return lines


def _next(
    it: Context, problem: LineProblem, line: list[int], left: list[int], at: int, seen: set[int]
) -> tuple[int, int] | None:
    """An edge that a line may go on with from a stop, and where that leads."""
    for other in left:
        edge = it.names.edges[problem.edges[other].id]
        if at not in (edge.left_stop, edge.right_stop):
            continue
        to = edge.left_stop if at == edge.right_stop else edge.right_stop
        bounds = [problem.edges[one] for one in [*line, other]]
        if to not in seen and max(one.least for one in bounds) <= min(one.most for one in bounds):
            return other, to
    return None


def _too_often(it: Context, problem: LineProblem) -> Finding:
    """All edges have lines, and these drive some edges too often."""
    try:
        excess = least_excess(problem, it.deadline)
        loads = _loads(it)
        told = [
            "where each edge is driven as often as it has to be, some are driven too often;"
            f" the least that is too many in sum: {sum(excess.values())}"
        ]
        for at, over in [*excess.items()][:MOST_TOLD]:
            edge = problem.edges[at]
            load = f", its load is {loads[at].load / MILLION:g}" if loads[at].load else ""
            told.append(
                f"{it.names.edge(edge.id)}: driven {_times(edge.most + over)}, at least"
                f" {edge.least} and at most {edge.most} are allowed{load}"
            )
        return finding(*told, remedy=_remedy(it, problem, excess), file=POOL.name)
    except NoTime:
        says = "HiGHS cannot tell in time which edges are driven too often"
        return finding(says, remedy="add lines to basis/Pool.giv, or a wider load_spread")


def _remedy(it: Context, problem: LineProblem, excess: dict[int, int]) -> str:
    """What gives a concept: other loads where they are given, else other settings."""
    if it.settings.load_source == "file":
        return _other_loads(it, problem, excess)
    return either(*_keys(it, problem)) or "add lines to basis/Pool.giv that go over fewer edges"


def _keys(it: Context, problem: LineProblem) -> list[str]:
    """The least values of settings with which there is a concept."""
    if it.settings.load_source == "file":
        return [_other_loads(it, problem, least_excess(problem, it.deadline))]
    now = it.settings
    spread = least_spread(problem, it.deadline)
    found = [] if spread is None else [it.set_key("load_spread", spread)]
    customers = least_capacity(
        problem,
        _loads(it),
        now.load_spread,
        now.gen_passengers_per_vehicle,
        it.deadline,
        it.progress,
    )
    if customers is not None:
        found.append(it.set_key("gen_passengers_per_vehicle", customers))
    return found


def _other_loads(it: Context, problem: LineProblem, excess: dict[int, int]) -> str:
    """Rows of the given loads with a greater maximal frequency."""
    text = it.copy.text(GIVEN_LOADS.name)
    lines = []
    for at, over in excess.items():
        edge = problem.edges[at]
        row = next((one for one in text.rows if float(one.cells[0]) == edge.id), None)
        if row is not None:
            lines.append(write_line(text.name, row.line, replaced(row, 3, str(edge.most + over))))
    return both(*lines)


def unmarked(it: Context, line: str) -> Finding:
    """A concept that may not be the cheapest."""
    cost = line.removeprefix("concept: ").split(",")[0]
    says = f"a cheaper concept than this one ({cost}) may be there: it is not proved optimal"
    if line.endswith("pinned"):
        prove = call("lintim-concept .")
        return finding(f"the pinned concept ({cost}) has no tree that proves it", remedy=prove)
    return finding(says, remedy=by_command(it))
