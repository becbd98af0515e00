"""Mandl's network as an example: the figures that prove its transcription, and the chain over
it."""

import shutil
from pathlib import Path

import networkx

from conftest import EXAMPLES
from lintim_companion import dataset, formats, program
from lintim_companion.cells import MILLION

MANDL = EXAMPLES / "mandl"


def test_the_figures_of_the_literature() -> None:
    """15 stops, 21 edges, 15,570 customers, and 10.0058 minutes where nobody has to change."""
    data = dataset.read(MANDL)
    graph = networkx.Graph()
    for edge in data[formats.EDGES]:
        graph.add_edge(edge.left_stop, edge.right_stop, minutes=edge.lower_bound)
    demand = {(row.from_stop, row.to_stop): row.customers for row in data[formats.DEMAND]}
    assert (len(data[formats.STOPS]), len(data[formats.EDGES])) == (15, 21)
    assert graph.number_of_nodes() == 15 and sum(demand.values()) == 15_570 * MILLION
    assert all(demand[b, a] == customers for (a, b), customers in demand.items())
    least = dict(networkx.all_pairs_dijkstra_path_length(graph, weight="minutes"))
    minutes = sum(customers * least[a][b] for (a, b), customers in demand.items())
    assert f"{minutes / sum(demand.values()):.4f}" == "10.0058"


def test_the_pool_is_that_of_lintim(lintim: str, tmp_path: Path) -> None:
    shutil.copytree(MANDL, tmp_path / "mandl")
    answer = program.run(tmp_path / "mandl", "pool", *map(str, range(1, 16)))
    assert answer.out == (MANDL / formats.POOL.name).read_text()


def test_the_chain_runs(lintim: str, tmp_path: Path) -> None:
    shutil.copytree(MANDL, tmp_path / "mandl")
    answer = program.run(tmp_path / "mandl", "make")
    assert (answer.status, answer.last) == (0, "done")
    assert program.run(tmp_path / "mandl", "check").last == "checked"
