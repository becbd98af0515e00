"""Texts that people spoil: what the reader refuses, and how, is what `lintim` refuses."""

import re
from pathlib import Path
from typing import Any

import pytest
from hypothesis import given, settings
from hypothesis import strategies as some

from conftest import Folders
from lintim_companion import dataset, formats, program, rows, tables
from lintim_companion.cells import File
from lintim_companion.faults import Refused, RowRefused

READ_IN_TURN = (formats.STOPS, formats.EDGES, formats.GIVEN_LOADS, formats.POOL)
OF_CELLS = re.compile(r"row \d+: (wrong number of fields|byte order mark|column \d+ is .*)$")
PIECES = some.sampled_from(
    [b";", b"; ", b"#", b'"', b'""', b"\r", b"\n", b"\r\n", b" ", b"\t", b"x", b"1", b"0", b"-"]
    + [b".", b".5", b"5.", b".0", b"1e3", b"+5", b"1,5", b"1.200", b"10001", b"1000000000001"]
    + [b"9" * 19, b"9" * 5000, b"\xef\xbb\xbf", "\u0663".encode(), "\uff11".encode(), b"\xfc"]
    + [b"1_0", b"\x00", b"\x0b", b"\x1c", b"\xc2\x85", "\u2028".encode(), b"\xa0", b"0x1"]
)


@some.composite
def spoiled(draw: some.DrawFn, text: bytes) -> bytes:
    """A text with some pieces put in, and some taken away."""
    for _ in range(draw(some.integers(1, 3))):
        at = draw(some.integers(0, len(text)))
        end = draw(some.integers(at, min(len(text), at + 4)))
        text = text[:at] + draw(some.one_of(PIECES, some.just(b""))) + text[end:]
    return text


def first_refused(folder: Path) -> str | None:
    """What the reader says of the files of the dataset, in the words of the program."""
    for file in READ_IN_TURN:
        try:
            dataset.read_file(folder, file)
        except RowRefused as why:
            return f"refused: {why.name} row {why.row}: {why.why}"
    return None


@settings(max_examples=150)
@given(data=some.data(), file=some.sampled_from(READ_IN_TURN))
def test_refused_as_by_the_program(
    data: some.DataObject, file: File[Any], example: Folders, lintim: str
) -> None:
    folder = example("three-stops")
    good = (folder / file.name).read_bytes()
    (folder / file.name).write_bytes(data.draw(spoiled(good)))
    said = program.run(folder, "fresh").last
    refused = first_refused(folder)
    assert said == refused if refused else not OF_CELLS.search(said)


CONFIG_ROWS = some.sampled_from(
    [b"include; a.cnf", b"include; b.cnf", b"include_if_exists; c.cnf", b"include; Config.cnf"]
    + [
        b"include; ../a.cnf",
        b"include; a..cnf",
        b"include; a.CNF",
        b"include",
        b'"include"; "a.cnf"',
    ]
    + [b"period_length; 30", b"period_length; 30.0", b"period_length; 07:00", b"Period_length; x"]
    + [b"ean_default_minimal_waiting_time; 4", b"ean_headway; 20", b"dm_wait; all", b"dm_wait; x"]
    + [b"dm_wait; -1", b"vs_vehicle_costs; 1.5", b"load_source; OD", b"x; y; z", b"x; #", b"; ;"]
    + [b"last_stage; cost", b"pin_concept; no", b"DM_latest_time; 5", b"# x", b"", b"\xef\xbb\xbf"]
)


@settings(max_examples=150)
@given(
    main=some.lists(CONFIG_ROWS, max_size=5),
    included=some.lists(CONFIG_ROWS, max_size=3),
    third=some.lists(CONFIG_ROWS, max_size=2),
)
def test_settings_as_by_the_program(
    main: list[bytes], included: list[bytes], third: list[bytes], example: Folders, lintim: str
) -> None:
    folder = example("three-stops")
    texts = {"Config.cnf": [b"load_source; file", *main], "a.cnf": included, "b.cnf": third}
    for name, lines in texts.items():
        (folder / "basis" / name).write_bytes(b"\n".join(lines))
    said = program.run(folder, "status")
    try:
        dataset.read(folder)
    except Refused as why:
        assert said.status == 3
        assert f"refused: {why}".startswith(said.last)
    else:
        assert said.status == 0


@given(value=some.integers(-(10**18), 10**18))
def test_numbers_are_read_back(value: int) -> None:
    assert rows.millionths(rows.number_text(value)) == value


@pytest.mark.parametrize(
    "cell, fixed, whole",
    [
        ("0.1234567", 123456, None),
        ("-0.0000009", 0, None),
        ("1000000000000", 10**18, 10**12),
        ("1000000000000.1", None, None),
        ("1000000000000.0", 10**18, 10**12),
        ("5.0", 5_000_000, 5),
        ("5.5", 5_500_000, None),
        ("1000000000000000001", None, None),
        *((cell, None, None) for cell in ("1e3", "", ".5", "5.", "+5", "\u0663", "1_0", " 1")),
    ],
)
def test_numbers_of_the_page(cell: str, fixed: int | None, whole: int | None) -> None:
    assert (rows.millionths(cell), rows.whole(cell)) == (fixed, whole)


def test_rows_are_counted_without_empty_lines() -> None:
    text = '1; 1;1 ;\r\n\r\n  # c\r\n2;2 ;"3"# x'
    assert [*rows.rows_of(text)] == [(1, 1, ["1", "1", "1"]), (3, 4, ["2", "2", "3"])]
    assert [*rows.rows_of("1; 2;;\n;\n;;\n")] == [
        (1, 1, ["1", "2", ""]),
        (2, 2, [""]),
        (3, 3, ["", ""]),
    ]


@given(names=some.lists(some.text(), min_size=4, max_size=4))
def test_names_are_written_so_that_they_are_read_back_or_not_at_all(names: list[str]) -> None:
    stop = formats.Stop(1, *names)
    try:
        data = tables.written(formats.STOPS, [stop])
    except RowRefused:
        assert any(set(name) & set(";#\n") or "\ud800" <= max(name, default="") for name in names)
    else:
        assert tables.parsed(formats.STOPS, data).rows == [stop]


def test_what_a_file_cannot_hold_is_not_written() -> None:
    with pytest.raises(RowRefused, match="column 1 cannot be written"):
        tables.written(formats.EDGES, [formats.Edge(0, 1, 2, 1, 1, 1)])
    with pytest.raises(RowRefused, match="column 4 cannot be written"):
        tables.written(formats.EDGES, [formats.Edge(1, 1, 2, 10**11, 1, 1)])
