"""Datasets that are made from a number: networks, lines, loads or demand, settings and delays, with
cells spelled in many ways. The same number gives the same bytes. Rows keep all rules, so `lintim`
refuses none of them; whether there is a concept or a timetable is left open."""

import random
from collections.abc import Iterable
from pathlib import Path
from typing import Any

Rows = Iterable[tuple[Any, ...]]


class Speller:
    """Writes rows with blanks, quotes, comments, zeros and line ends as people do."""

    def __init__(self, chance: random.Random) -> None:
        self.chance = chance
        self.oddness = chance.choice((0.0, 0.0, 0.1, 0.4))
        self.end = chance.choice(("\n", "\n", "\r\n"))

    def is_odd(self, part: float = 1.0) -> bool:
        return self.chance.random() < self.oddness * part

    def cell(self, value: Any) -> str:
        text = str(value)
        if isinstance(value, int) and self.is_odd(0.3):
            text = self.chance.choice(("0" + text, text + ".0", text + ".00000000"))
        if self.is_odd(0.3):
            text = f'"{text}"'
        if self.is_odd():
            text = (
                self.chance.choice((" ", "\t", "  ")) + text + self.chance.choice(("", " ", "\t"))
            )
        return text

    def line(self, row: tuple[Any, ...]) -> str:
        line = self.chance.choice(("; ", ";")).join(map(self.cell, row))
        if self.is_odd(0.3):
            line += self.chance.choice((";", " ; ", ";\t"))
        if self.is_odd(0.3):
            line += self.chance.choice(("#", " # a word", '#"; 1; 2'))
        return line

    def text(self, rows: Rows) -> bytes:
        lines = ["# made from a number"] if self.chance.random() < 0.5 else []
        for row in rows:
            if self.is_odd(0.3):
                lines.append(self.chance.choice(("", "  ", "# 1; 2", "\t#")))
            lines.append(self.line(row))
        text = "".join(line + self.end for line in lines)
        if self.is_odd() and text.endswith(self.end):
            text = text[: -len(self.end)]
        return text.encode()


class Maker:
    """A dataset in the making; `size` bounds the stops."""

    def __init__(self, seed: int, size: int) -> None:
        self.chance = random.Random(seed)
        self.spell = Speller(self.chance)
        self.files: dict[str, bytes] = {}
        self.stops = self.ids(self.chance.randint(2, size))
        self.edges = self.network()
        self.lines = self.pool()
        self.keys = self.settings()
        self.put_network()
        self.put_loads()
        self.put("basis/Config.cnf", self.keys.items())

    def put(self, name: str, rows: Rows) -> None:
        self.files[name] = self.spell.text(rows)

    def ids(self, count: int) -> list[int]:
        """So many different ids, in any order."""
        most = self.chance.choice((count, 3 * count, 10**9))
        return self.chance.sample(range(1, most + 1), count)

    def network(self) -> dict[int, tuple[int, int]]:
        """A tree over all stops, and some edges more: the two ends of each."""
        chance, stops = self.chance, self.stops
        ends = [(chance.choice(stops[:place]), stops[place]) for place in range(1, len(stops))]
        for _ in range(chance.randint(0, len(stops) // 2)):
            ends.append((lambda two: (two[0], two[1]))(chance.sample(stops, 2)))
        return dict(zip(self.ids(len(ends)), ends))

    def walk(self, first: int) -> list[int]:
        """A walk that begins with an edge and has none twice, and no stop but perhaps the first."""
        at, seen, on = self.edges[first][1], set(self.edges[first]), [first]
        for _ in range(self.chance.randint(0, 5)):
            ways = [
                (edge, other)
                for edge, ends in self.edges.items()
                for here, other in (ends, ends[::-1])
                if here == at and other not in seen
            ]
            if not ways:
                break
            edge, at = self.chance.choice(ways)
            seen.add(at)
            on.append(edge)
        return on if self.chance.random() < 0.5 else on[::-1]

    def pool(self) -> dict[int, list[int]]:
        """Lines over every edge, by id."""
        lines: list[list[int]] = []
        for edge in self.chance.sample(list(self.edges), len(self.edges)):
            if self.chance.random() < 0.3 or not any(edge in line for line in lines):
                lines.append(self.walk(edge))
        return dict(zip(self.ids(len(lines)), lines))

    def settings(self) -> dict[str, Any]:
        chance = self.chance
        period = chance.choice((10, 20, 30, 60, 60, chance.randint(8, 90)))
        least = chance.choice((1, 2, 3))
        begin = chance.randint(0, 500)
        return {
            "load_source": chance.choice(("od", "file")),
            "period_length": period,
            "lpool_costs_fixed": chance.choice(("10", "12.5", "0.000001")),
            "lpool_costs_length": chance.choice(("1", "0.333333", "2.1234567")),
            "concept_budget": chance.choice((300, 5000)),
            "timetable_budget": 5000,
            "ean_default_minimal_change_time": least,
            "ean_default_maximal_change_time": least + period + chance.choice((-2, 0, 20)),
            "ean_headway": chance.choice((0, 0, 0, 1, 2)),
            "DM_earliest_time": begin,
            "DM_latest_time": begin + chance.randint(0, 3 * period),
            "vs_turn_over_time": chance.choice((0, 2, 5)),
            "vs_vehicle_costs": chance.choice(("100", "7.25", "0")),
            "vs_empty_costs": chance.choice(("1", "0.5", "3")),
            "dm_wait": chance.choice(("all", "none", 0, 3, 10)),
            "some_key_of_another_program": "x",
        }

    def put_network(self) -> None:
        chance = self.chance
        names = ("A", "Süd", "Grand Place", "an 'old' \"one\"")
        self.put(
            "basis/Stop.giv",
            ((stop, "s", chance.choice(names), chance.randint(-9, 9), 0.5) for stop in self.stops),
        )
        rows = []
        for edge, (left, right) in self.edges.items():
            least = chance.randint(1, 9)
            length = chance.choice((1, 2, "0.5", "3.25", "0.000001", "12.3456789"))
            rows.append((edge, left, right, length, least, least + chance.choice((0, 1, 3))))
        self.put("basis/Edge.giv", rows)
        pool = [
            [(line, order, edge) for order, edge in enumerate(on, 1)]
            for line, on in self.lines.items()
        ]
        self.put("basis/Pool.giv", (row for line in pool for row in line))

    def put_loads(self) -> None:
        chance = self.chance
        often = {line: chance.choice((0, 1, 1, 2)) for line in self.lines}
        rows = []
        for edge in self.edges:
            drives = sum(often[line] for line, on in self.lines.items() if edge in on)
            least = max(0, drives - chance.randint(0, 1))
            rows.append(
                (edge, chance.choice((0, "100.5", 77)), least, drives + chance.randint(0, 2))
            )
        self.put("basis/Load.giv", rows)
        self.put(
            "basis/OD.giv",
            (
                (*chance.choices(self.stops, k=2), chance.choice((0, 10, "35.5", "99.999999")))
                for _ in range(chance.randint(0, 2 * len(self.stops)))
            ),
        )
        self.keys["gen_passengers_per_vehicle"] = chance.choice((70, 200))
        self.keys["load_spread"] = chance.choice((3, 6))


def dataset(seed: int, size: int = 9) -> dict[str, bytes]:
    """The files of the dataset of a number, without delays."""
    return Maker(seed, size).files


def delays(seed: int, events: int, activities: int) -> dict[str, bytes]:
    """Files of delays for a day with so many events and activities."""
    chance = random.Random(f"delays {seed}")
    spell = Speller(chance)
    found = {}
    for name, count in (("Event", events), ("Activity", activities)):
        late = chance.sample(range(1, count + 1), min(count, chance.randint(0, 4)))
        rows = [(at, chance.choice((0, 1, 3, 5, 8, 20))) for at in late]
        found[f"delay-management/{name}-delays.giv"] = spell.text(rows)
    return found


def write(folder: Path, files: dict[str, bytes]) -> Path:
    """Writes files below a folder."""
    for name, data in files.items():
        (folder / name).parent.mkdir(parents=True, exist_ok=True)
        (folder / name).write_bytes(data)
    return folder
