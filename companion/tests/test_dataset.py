"""Reading and writing beside the program: the same bytes, the same values, the same refusals."""

import os
import subprocess
import sys
from pathlib import Path

import pytest

import seeded
from conftest import Folders
from lintim_companion import dataset, formats, program, tables
from lintim_companion.cells import Fixed, Whole
from lintim_companion.columns import columns, keys
from lintim_companion.tables import text_of

NAMES = ["three-stops", "market-town", *(f"demo {size}" for size in range(1, 9))]


def is_written_as_made(folder: Path) -> int:
    """Whether each made file that is read is written with the same bytes; how many there are."""
    data = dataset.read(folder)
    made = [file for file in formats.FILES if file.stage and file in data]
    for file in made:
        assert tables.written(file, data[file].rows) == (folder / file.name).read_bytes(), file.name
    return len(made)


def has_read_as_the_program(folder: Path) -> None:
    """Whether the hand files, read and written in the plain form, lead to the same made files."""
    data = dataset.read(folder)
    made = {
        file.name: (folder / file.name).read_bytes()
        for file in formats.FILES
        if file.stage and file in data
    }
    for file in formats.FILES:
        if not file.stage and file in data:
            dataset.write(folder, file, data[file].rows)
            assert dataset.read_file(folder, file).rows == data[file].rows
    program.run(folder, "make")
    for name, text in made.items():
        assert (folder / name).read_bytes() == text, name


def has_the_settings_of_the_program(folder: Path) -> None:
    """Whether the settings are those that the program kept of each stage."""
    cells = {key.name: key.cell for key in keys()}
    values = dataset.read(folder).settings._asdict()
    for path in (folder / "keep").glob("*.keep"):
        head, _, rest = path.read_bytes().partition(b"settings ")
        count, _, rest = rest.partition(b"\n")
        for row in rest[: int(count)].decode().splitlines():
            key, value = row.split("; ")
            assert text_of(cells[key], values[key]) == value, key


@pytest.mark.parametrize("name", NAMES)
def test_examples_and_demos(name: str, example: Folders, lintim: str) -> None:
    folder = example(name)
    assert program.run(folder, "make").last == "done"
    assert is_written_as_made(folder) == 15
    has_the_settings_of_the_program(folder)
    has_read_as_the_program(folder)


@pytest.mark.parametrize("size", range(1, 9))
def test_demos_are_those_of_the_program(size: int, example: Folders, lintim: str) -> None:
    folder = example(f"demo {size}")
    assert program.run(folder, "make").out == program.run(folder, "demo", str(size)).out


def see_seed(seed: int, folder: Path) -> None:
    """The round trip over a seeded dataset, with delays where its day has events."""
    seeded.write(folder, seeded.dataset(seed))
    assert program.run(folder, "make").status in (0, 4, 5)
    data = dataset.read(folder)
    events, activities = (len(data.get(it)) for it in (formats.DAY_EVENTS, formats.DAY_ACTIVITIES))
    seeded.write(folder, seeded.delays(seed, events, activities))
    assert program.run(folder, "make").status in (0, 4, 5)
    is_written_as_made(folder)
    has_the_settings_of_the_program(folder)
    has_read_as_the_program(folder)


@pytest.mark.parametrize("tens", range(50))
def test_seeded_datasets(tens: int, tmp_path: Path, lintim: str) -> None:
    for seed in range(10 * tens, 10 * tens + 10):
        see_seed(seed, tmp_path / str(seed))


def test_every_file_of_the_table_is_made(example: Folders, lintim: str) -> None:
    folder = example("market-town")
    program.run(folder, "make")
    there = {str(path.relative_to(folder)) for path in folder.rglob("*.*") if path.is_file()}
    named = {file.name for file in formats.FILES if file.stage}
    assert named <= there
    assert {name for name in there if not name.startswith(("keep/", "basis/Config"))} <= {
        file.name for file in formats.FILES
    }


def test_columns_have_names(example: Folders) -> None:
    data = dataset.read(example("three-stops"))
    edges = data[formats.EDGES]
    assert [edge.length for edge in edges] == [2_000_000, 3_000_000]
    assert edges.column("lower_bound") == [4, 6]
    assert list(edges.numbers) == [2, 3] == list(edges.lines)
    assert [column.name for column in columns(formats.EDGES)][:3] == [
        "edge_id",
        "left_stop",
        "right_stop",
    ]
    assert formats.TRIPS not in data and not data.get(formats.TRIPS).rows
    assert data.settings.period_length == 20 and data.settings.load_spread == 3


def test_names_are_read_as_utf_8_and_else_as_latin_1(example: Folders) -> None:
    folder = example("three-stops")
    text = "1; \u00fc; S\u00fcd; 0; 0\n".encode() + "2; \u00fc; S\u00fcd; 0; 0\n".encode("latin-1")
    (folder / "basis/Stop.giv").write_bytes(text)
    assert [stop.long_name for stop in dataset.read(folder)[formats.STOPS]] == ["S\u00fcd"] * 2


def test_frames_and_graphs(example: Folders, lintim: str) -> None:
    pandas = pytest.importorskip("pandas")
    pytest.importorskip("networkx")
    folder = example("market-town")
    program.run(folder, "make")
    data = dataset.read(folder)
    frames = data.frames()
    assert set(frames) == set(data.tables())
    for name, table in data.tables().items():
        rows = [tuple(row) for row in frames[name].itertuples(index=False)]
        assert rows == [tuple(row) for row in table]
        assert not any(pandas.api.types.is_float_dtype(kind) for kind in frames[name].dtypes)
        for column in columns(table.file):
            if isinstance(column.cell, Whole | Fixed):
                assert frames[name].iloc[:0].dtypes[column.name] == "int64"
    assert frames["basis/Edge.giv"].attrs["units"]["length"] == "millionths of units of length"
    network = data.graph()
    assert (len(network), network.number_of_edges()) == (8, 7)
    assert network.edges[1, 2, 1]["load"] == 112_000_000
    assert data.graph("period").number_of_edges() == 92
    assert data.graph("day").nodes[3]["disposed_time"] == 431


def test_a_table_without_rows_is_a_frame(tmp_path: Path) -> None:
    pytest.importorskip("pandas")
    (tmp_path / "basis").mkdir()
    dataset.write(tmp_path, formats.EDGES, [])
    frame = dataset.read(tmp_path).frames()["basis/Edge.giv"]
    assert len(frame) == 0 and {str(kind) for kind in frame.dtypes} == {"int64"}


def test_pandas_and_networkx_are_imported_only_when_asked_for(example: Folders) -> None:
    code = f"from lintim_companion import dataset; dataset.read({str(example('market-town'))!r}).tables()"
    code += "; import sys; assert not {'pandas', 'networkx', 'numpy', 'scipy'} & set(sys.modules)"
    place = {**os.environ, "PYTHONPATH": str(program.CHECKOUT / "companion")}
    subprocess.run([sys.executable, "-P", "-c", code], env=place, check=True)
