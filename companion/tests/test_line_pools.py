"""Pools of lines: what they are made of, and what `lintim` says of them."""

import itertools
import random
from pathlib import Path

import networkx
import pytest
from hypothesis import given, settings
from hypothesis import strategies as some

from commands import made, run
from conftest import Folders
from lintim_companion import dataset, formats, generators, program
from lintim_companion.line_pools.candidates import DETOUR, network_of, paths, trees
from lintim_companion.line_pools.choice import chosen, customers_of
from searches import QUIET, time

pytestmark = pytest.mark.usefixtures("lintim")


def town(folder: Path, seed: int, stops: int = 9) -> Path:
    """A town without a pool."""
    network = generators.planar(stops, seed)
    demand = generators.gravity(network, 500, seed)
    generators.write(folder, network, [], demand, {"load_source": "od", "load_spread": 5})
    (folder / formats.POOL.name).unlink()
    return folder


def stops_of(data: dataset.Dataset) -> dict[int, list[tuple[int, int]]]:
    """The ends of the edges of each line."""
    edges = {it.edge_id: (it.left_stop, it.right_stop) for it in data[formats.EDGES]}
    found: dict[int, list[tuple[int, int]]] = {}
    for row in data[formats.POOL]:
        found.setdefault(row.line_id, []).append(edges[row.edge_id])
    return found


@settings(max_examples=25)
@given(seed=some.integers(0, 10**6), each=some.integers(1, 6))
def test_paths_are_the_shortest_ones(seed: int, each: int) -> None:
    chance = random.Random(seed)
    graph: networkx.Graph = networkx.gnp_random_graph(chance.randint(2, 7), 0.5, seed)
    for edge in graph.edges:
        graph.edges[edge]["minutes"] = chance.randint(1, 5)
    found = [*paths(graph, [0, 1], each, time(), QUIET)]
    every = networkx.all_simple_paths(graph, 0, 1)
    lengths = sorted(networkx.path_weight(graph, path, "minutes") for path in every)
    within = [it for it in lengths[:each] if it <= DETOUR * lengths[0]]
    assert [networkx.path_weight(graph, path, "minutes") for path in found] == within
    assert len(set(found)) == len(found) and all(len({*line}) == len(line) for line in found)


@pytest.mark.parametrize("seed", range(4))
def test_trees_cover_each_edge(seed: int, tmp_path: Path) -> None:
    graph = network_of(dataset.read(town(tmp_path, seed)))
    lines = [*trees(graph, [], time(), QUIET)]
    over = {frozenset(two) for line in lines for two in itertools.pairwise(line)}
    assert over == {frozenset(edge) for edge in graph.edges}


@pytest.mark.parametrize("seed", range(4))
def test_more_lines_are_never_worse(seed: int, tmp_path: Path) -> None:
    data = dataset.read(town(tmp_path, seed))
    graph = network_of(data)
    candidates = [*trees(graph, [], time(), QUIET)]
    few, many = (chosen(graph, candidates, customers_of(data), it, QUIET) for it in (4, 9))
    assert many.lines[: len(few.lines)] == few.lines and len(few.lines) == 4
    assert set(many.uncovered) <= set(few.uncovered)


@pytest.mark.parametrize("method", ("paths", "trees", "both"))
@pytest.mark.parametrize("seed", range(3))
def test_a_pool_is_taken(method: str, seed: int, tmp_path: Path) -> None:
    folder = town(tmp_path, seed)
    ended = run("lintim-pool", folder, "--method", method, "--lines", 12)
    assert (ended.status, ended.err) == (0, [])
    data = dataset.read(folder)
    lines = stops_of(data)
    assert 0 < len(lines) <= 12 and f"{len(lines)} lines, by {method}" in ended.out[0]
    for line in lines.values():
        assert len({*line}) == len(line)
        assert all({*one} & {*other} for one, other in itertools.pairwise(line))
    used = {row.edge_id for row in data[formats.POOL]}
    left = [it.edge_id for it in data[formats.EDGES] if it.edge_id not in used]
    assert (not left) is ("each edge has a line" in ended.out[1])
    assert not left or f"covers {len(left)} edges: {', '.join(map(str, left))}" in ended.out[1]
    assert program.run(folder, "make").line_of("cost") == f"cost: {len(lines)} lines"


def test_lines_of_paths_end_at_terminals(tmp_path: Path) -> None:
    folder = town(tmp_path, 1)
    ended = run("lintim-pool", folder, "--method", "paths", "--terminals", "1,4,6")
    assert ended.status == 0
    for line in stops_of(dataset.read(folder)).values():
        graph = networkx.Graph(line)
        assert {stop for stop in graph if graph.degree(stop) == 1} <= {1, 4, 6}


def test_a_pool_that_stands_is_kept(example: Folders) -> None:
    folder = made(example("market-town"))
    before = (folder / formats.POOL.name).read_bytes()
    ended = run("lintim-pool", folder)
    assert ended.status == 1 and "--replace writes another one" in ended.one_line()
    assert (folder / formats.POOL.name).read_bytes() == before
    assert run("lintim-pool", folder, "--replace").status == 0
    assert (folder / formats.POOL.name).read_bytes() != before


@pytest.mark.parametrize(
    "words, says, status",
    (
        (("--method", "stars"), "--method is stars, wanted paths, trees, both", 2),
        (("--terminals", "1;2"), "--terminals wants ids as 1,2,4", 2),
        (("--terminals", "1,77"), "--terminals has 77, and no such stop is there", 2),
        (("--lines", "201"), "no whole number from 1 to 200", 2),
        (("--method", "paths", "--terminals", "1"), "there is no line between the terminals", 1),
    ),
)
def test_wrong_words(words: tuple[str, ...], says: str, status: int, example: Folders) -> None:
    ended = run("lintim-pool", example("market-town"), *words, "--replace")
    assert ended.status == status and says in ended.one_line()


def test_edges_that_are_none(example: Folders) -> None:
    folder = example("market-town")
    edges = folder / formats.EDGES.name
    edges.write_text(edges.read_text() + "1; 1; 2; 1; 1; 1\n")
    ended = run("lintim-pool", folder, "--replace")
    assert ended.status == 1 and "edge 1 is there twice" in ended.one_line()
