"""Which plans of LinTim are pinned: those that `lintim make` will take."""

from .. import formats
from .periodic import broken
from .planning import broken_edges
from .taking import Taken


def see_pins(taken: Taken) -> None:
    """Lets plans that are not kept stand there without their keys, so that `lintim make` runs."""
    edges = broken_edges(taken.lines, taken.loads or []) if taken.pins else []
    if edges:
        load, drives = edges[0]
        taken.notes.lose(
            f"the concept is not kept here, so pin_concept is no: edge {load.edge_id} is driven"
            f" {drives} times, {load.minimal_frequency} to {load.maximal_frequency} are wanted"
        )
        taken.pins.update(dict.fromkeys(taken.pins, "no"))
    periodic = taken.periodic
    if periodic is not None and periodic.times is not None:
        period = int(taken.values.get("period_length", formats.Settings().period_length))
        if faults := broken(periodic.made, periodic.times, period):
            taken.notes.lose(
                f"the timetable is not kept here, so pin_timetable is no: {len(faults)} activities"
                " are broken; lintim-convert judge tells the first"
            )
            taken.pins.update({key: "no" for key in taken.pins if key != "pin_concept"})
