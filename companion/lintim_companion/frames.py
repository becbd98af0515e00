"""Tables for pandas. Numbers stay whole: those with a fraction are counted in millionths."""

from typing import Any

import pandas

from .cells import Fixed, Whole
from .columns import columns, is_fixed, unit
from .tables import Table


def frame_of(table: Table[Any]) -> pandas.DataFrame:
    """A table as a frame; `frame.attrs["units"]` says what each column counts."""
    wanted = columns(table.file)
    frame = pandas.DataFrame(table.rows, columns=[column.name for column in wanted])
    for column in wanted:
        if isinstance(column.cell, Whole | Fixed):
            is_small = all(value < 2**63 for value in table.column(column.name))
            kind = "int64" if is_small else "object"
            frame[column.name] = frame[column.name].astype(kind)
    frame.attrs["units"] = {
        column.name: ("millionths of " if is_fixed(column.cell) else "") + unit(column.cell)
        for column in wanted
        if unit(column.cell)
    }
    return frame
