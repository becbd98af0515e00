"""The front of cost against direct travellers, as a table and as a picture."""

import io
from typing import NamedTuple

from .journeys import Served

COLUMNS = (
    "budget",
    "cost",
    "direct_with_seat",
    "bound",
    "optimal",
    "share_direct",
    "share_one_change",
    "share_more",
    "ride_minutes",
    "minutes_with_penalties",
)


class Point(NamedTuple):
    """A budget, what the concept costs, how many are direct and at most can be, whether that is
    proved by HiGHS, what customers have of it, and how often each line is driven."""

    budget: float
    cost: float
    direct: float
    bound: float
    is_best: bool
    served: Served
    frequencies: list[int]


def table(points: list[Point], total: float) -> bytes:
    """A CSV file with a row for each budget; shares are of all customers."""
    lines = [",".join(COLUMNS)]
    for it in points:
        shares = [part / total for part in it.served[1:4]]
        numbers = [it.budget, it.cost, it.direct, it.bound, int(it.is_best), *shares]
        numbers += [it.served.ride_minutes, it.served.minutes]
        lines.append(",".join(f"{number:.10g}" for number in numbers))
    return ("\n".join(lines) + "\n").encode()


def picture(points: list[Point], total: float, suffix: str) -> bytes:
    """A picture of the front: the same bytes for the same points."""
    from ..pictures.drawing import Figure, matplotlib

    with matplotlib.rc_context({"svg.hashsalt": "lintim", "svg.fonttype": "none"}):
        figure = Figure(figsize=(7, 4), layout="constrained")
        axes = figure.add_subplot()
        costs = [it.cost for it in points]
        axes.plot(costs, [100 * it.direct / total for it in points], marker="o", label="found")
        if not all(it.is_best for it in points):
            bounds = [100 * it.bound / total for it in points]
            axes.plot([it.budget for it in points], bounds, ls="--", label="bound")
            axes.legend()
        axes.set_xlabel("cost of the line concept")
        axes.set_ylabel("direct customers in percent")
        axes.grid(alpha=0.3)
        data = io.BytesIO()
        metadata = {"Date": None} if suffix == ".svg" else {}
        figure.savefig(data, format=suffix.lstrip("."), metadata=metadata)
    return data.getvalue()
