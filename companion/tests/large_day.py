"""The largest day that `lintim` takes: 20 lines of 25 edges as ten streets and ten avenues, 2,000
trips and 100,000 events, with some delays."""

from pathlib import Path

from lintim_companion import dataset, formats
from lintim_companion.cells import MILLION
from lintim_companion.demos import pool_rows
from lintim_companion.formats import Edge, EventDelay, Load, Stop

LONG, LINES, APART = 26, 10, 2
Place = tuple[int, int]


def ways() -> list[list[Place]]:
    """The places of the stops of each line."""
    at = [APART * line for line in range(LINES)]
    streets = [[(x, y) for x in range(LONG)] for y in at]
    avenues = [[(x, y) for y in range(LONG)] for x in at]
    return streets + avenues


def write_large_day(folder: Path) -> None:
    """Writes the dataset into a folder."""
    places = sorted({place for way in ways() for place in way})
    stop_at = {place: id for id, place in enumerate(places, 1)}
    stops = [
        Stop(id, f"{x}/{y}", f"Street {y} at {x}", str(x), str(y)) for (x, y), id in stop_at.items()
    ]
    edges: list[Edge] = []
    lines: list[list[int]] = []
    for way in ways():
        lines.append([len(edges) + place for place in range(1, LONG)])
        for a, b in zip(way, way[1:]):
            id = len(edges) + 1
            edges.append(Edge(id, stop_at[a], stop_at[b], MILLION, 2 + id % 3, 3 + id % 3))
    loads = [Load(edge.edge_id, (20 + edge.edge_id % 50) * MILLION, 1, 1) for edge in edges]
    dataset.write(folder, formats.STOPS, stops)
    dataset.write(folder, formats.EDGES, edges)
    dataset.write(folder, formats.POOL, pool_rows(lines))
    dataset.write(folder, formats.GIVEN_LOADS, loads)
    late = [EventDelay(event, 15) for event in range(1_001, 100_000, 9_000)]
    dataset.write(folder, formats.EVENT_DELAYS, late)
    keys: dict[str, int | str] = {"load_source": "file", "period_length": 20}
    keys |= {"DM_earliest_time": 300, "DM_latest_time": 300 + 50 * 20 - 1}
    dataset.write_settings(folder, keys)
