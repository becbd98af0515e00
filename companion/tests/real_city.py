"""A city with what real feeds have: one-way streets, variants, short turns, night lines, trams with
branches, stations with platforms and pairs of stops under one name. The same number of stations and
the same seed give the same bytes.

    (cd companion/tests && PYTHONPATH=. /usr/bin/python3 -P real_city.py FEED.zip [STATIONS [SEED]])
"""

import random
import sys
from pathlib import Path

import networkx

from made_city import HOUR, City, Files, write

COLOURS = ("C4002A", "005CA9", "007A3D", "F39200", "6F2C91", "00A0AF")
RUNNING = (60, 60, 120, 120, 180)  # seconds of a drive
STAND = 0


class Town:
    """The streets of a city: stations on a grid, and seconds from one to the next."""

    def __init__(self, stations: int, seed: int) -> None:
        self.chance = random.Random(seed)
        self.wide = round(stations**0.5)
        self.graph = networkx.grid_2d_graph(self.wide, -(-stations // self.wide))
        for a, b in self.graph.edges:
            self.graph[a][b]["seconds"] = self.chance.choice(RUNNING)
            self.graph[a][b]["weight"] = self.chance.uniform(1, 3)
        self.nodes = sorted(self.graph)

    def way(self) -> list[tuple[int, int]]:
        """A way through the city, by chance."""
        half = self.wide // 2
        rim = [it for it in self.nodes if 0 in it or self.wide - 1 in it]
        a, b = self.chance.sample(rim, 2)
        middle = half + self.chance.randint(-2, 2), half + self.chance.randint(-2, 2)
        parts = [
            networkx.shortest_path(self.graph, *two, weight="weight")
            for two in ((a, middle), (middle, b))
        ]
        way = list(dict.fromkeys([*parts[0], *parts[1]]))
        good = [at for at, two in enumerate(zip(way, way[1:])) if not self.graph.has_edge(*two)]
        way = way[: good[0] + 1] if good else way
        return way[:28] if len(way) > 4 else self.way()

    def drives(self, way: list[tuple[int, int]]) -> list[int]:
        """The seconds of each drive; twice as long where a station lies between."""
        return [
            self.graph[a][b]["seconds"] if self.graph.has_edge(a, b) else 180
            for a, b in zip(way, way[1:])
        ]


def _stops(city: City, town: Town) -> dict[tuple[int, int], tuple[str, str]]:
    """The stops of all stations: one for each direction."""
    found = {}
    for place in town.nodes:
        name = f"{place[0]}x{place[1]}"
        east, north = (0.4 * it + town.chance.uniform(-0.08, 0.08) for it in place)
        label = f"Square {name}"
        if town.chance.random() < 0.3:
            city.stop(name, east, north, label, location_type=1)
            for side in "ab":
                city.stop(name + side, east, north, label, location_type=0, parent_station=name)
        else:
            for side in "ab":
                city.stop(name + side, east, north + 0.03 * (side == "b"), label)
        found[place] = name + "a", name + "b"
    return found


def _route(city: City, town: Town, stops: dict[tuple[int, int], tuple[str, str]], at: int) -> None:
    """A route with its way, the way back, a short turn and a variant."""
    chance, name = town.chance, str(at + 1) if at < 6 else str(at + 94)
    way, headway = town.way(), 60 * chance.choice((10, 15, 20, 20, 30))
    city.route(f"R{name}", 0 if at < 6 else 3)
    city.rows["routes.txt"][-1].update(
        route_short_name=name, route_color=COLOURS[at % len(COLOURS)], route_text_color="FFFFFF"
    )
    back = way[::-1]
    if at >= 6 and chance.random() < 0.5 and len(back) > 5:
        del back[chance.randrange(1, len(back) - 1)]  # a one-way street
    first = chance.randrange(0, 20) * 60
    is_night = at % 10 == 9
    hours = (23, 28) if is_night else (5, 23)
    for side, full in enumerate((way, back)):
        short, branch = full[: max(3, 3 * len(full) // 4)], full[:-2]
        for number, start in enumerate(range(hours[0] * HOUR + first, hours[1] * HOUR, headway)):
            kind = number % 8
            taken = short if kind == 3 and len(short) > 2 else branch if kind == 6 else full
            slow = 1 + (kind == 7)
            city.trip(
                f"{name}-{side}-{number}",
                f"R{name}",
                [stops[it][side] for it in taken],
                start,
                [slow * it for it in town.drives(taken)],
                STAND,
                direction_id=side,
            )


def city_of(stations: int = 300, seed: int = 1) -> Files:
    """The feed of a city; a route for each twelve stations."""
    city, town = City(), Town(stations, seed)
    city.weekly("week")
    stops = _stops(city, town)
    for at in range(max(8, stations // 12)):
        _route(city, town, stops, at)
    feed_info = {"feed_publisher_name": "City", "feed_publisher_url": "https://city.example"}
    city.add("feed_info", **feed_info, feed_lang="en")
    return city.files()


if __name__ == "__main__":
    write(Path(sys.argv[1]), city_of(*map(int, sys.argv[2:])))
