"""The plan of a dataset from the trips of a feed: its network, its lines and their minutes."""

from collections import Counter
from dataclasses import dataclass, field

from .lines import Line, Part, pairs_of
from .periods import Timed, Window, timed
from .rides import Rides
from .stations import Station, Stations

Pair = tuple[int, int]


@dataclass
class Plan:
    """The network, the lines and their minutes; stations and lines are told by their ids."""

    window: Window
    stops: dict[int, Station]  # by ids
    edges: dict[int, tuple[int, int]]  # the ids of the left and the right stop, by ids
    bounds: dict[
        Pair, tuple[int, int]
    ]  # least and greatest minutes, by the lesser id and the other
    lines: dict[int, Line]
    timed: dict[int, Timed]
    drives: Counter[tuple[int, int]]  # how often each edge is driven, from stop to stop
    waits: tuple[int, int]
    id_of_station: dict[int, int] = field(default_factory=dict)

    def stations_of(self, line: int) -> list[int]:
        """The ids of the stops of a line."""
        return [self.id_of_station[it] for it in self.lines[line].way]

    @property
    def edge_of(self) -> dict[Pair, int]:
        """The id of the edge between two stops, the lesser one first."""
        return {(min(two), max(two)): edge for edge, two in self.edges.items()}

    @property
    def periodic(self) -> int:
        """How many lines are as in the feed."""
        return sum(not it.why_not for it in self.timed.values())

    @property
    def is_timed(self) -> bool:
        """Whether some line is as in the feed."""
        return self.periodic > 0


def plan_of(parts: list[Part], lines: list[Line], rides: Rides, period: int) -> Plan:
    """The plan for the trips that are taken; its day is that of the trips of its lines."""
    starts = [run.start for line in lines for run in (*line.forward, *line.backward)]
    day = Window(min(starts), max(starts), period)
    stops = _ids_of_stops(parts, rides.stations)
    id_of = {station: stop for stop, station in stops.items()}
    named = _ids_of_lines(lines)
    edges = _edges(parts, named, id_of)
    drives = Counter[tuple[int, int]]()
    minutes: dict[Pair, tuple[int, int]] = {}
    for _, a, b in pairs_of(parts):
        two = id_of[a.station], id_of[b.station]
        drives[two] += 1
        pair, took = (min(two), max(two)), b.arrival - a.departure
        least, most = minutes.get(pair, (took, took))
        minutes[pair] = min(least, took), max(most, took)
    waits = _waits(lines)
    found = {}
    for name, line in named.items():
        found[name] = _seen(timed(line, day), line, minutes, waits, day, id_of)
    where = {stop: rides.stations[station] for stop, station in stops.items()}
    return Plan(day, where, edges, minutes, named, found, drives, waits, id_of)


def _kept_ids(names: list[str]) -> list[int] | None:
    """Ids of the feed that can be ids of a dataset as they are."""
    good = all(it.isascii() and it.isdigit() and it[0] != "0" and len(it) < 10 for it in names)
    return [int(it) for it in names] if good and len(set(names)) == len(names) else None


def _ids_of_stops(parts: list[Part], stations: Stations) -> dict[int, int]:
    """The stations that are called at by the ids of the stops that they become."""
    used = sorted({call.station for part in parts for call in part.calls})
    kept = _kept_ids([stations[it].gtfs_id for it in used])
    return dict(sorted(zip(kept or range(1, len(used) + 1), used)))


def _ids_of_lines(lines: list[Line]) -> dict[int, Line]:
    kept = _kept_ids([line.route for line in lines])
    return dict(sorted(zip(kept or range(1, len(lines) + 1), lines), key=lambda it: it[0]))


def _edges(
    parts: list[Part], lines: dict[int, Line], id_of: dict[int, int]
) -> dict[int, tuple[int, int]]:
    """An edge for each two stations that follow one another. Those of lines come first, in the
    order of these; a line is driven from the left stop of its first edge, and so a line of one
    edge decides which one is left."""
    ends: dict[Pair, tuple[int, int]] = {}
    for line in sorted(lines.values(), key=lambda it: len(it.way)):
        for two in zip(line.way, line.way[1:]):
            ends.setdefault((min(two), max(two)), two)
        if len(line.way) == 2 and ends[line.edges[0]] != line.way:
            line.turn()
    order = dict.fromkeys(edge for line in lines.values() for edge in line.edges)
    for _, a, b in pairs_of(parts):
        pair = (min(a.station, b.station), max(a.station, b.station))
        ends.setdefault(pair, (a.station, b.station))
        order.setdefault(pair)
    return {
        edge: (id_of[ends[pair][0]], id_of[ends[pair][1]]) for edge, pair in enumerate(order, 1)
    }


def _waits(lines: list[Line]) -> tuple[int, int]:
    """The least and the greatest minutes for which a vehicle of a line stands at a stop."""
    found = {
        b - a
        for line in lines
        for run in (*line.forward, *line.backward)
        for a, b in zip(run.offsets[0:-1:2], run.offsets[1::2])
    }
    return (min(found), max(found)) if found else (1, 3)


def _seen(
    found: Timed,
    line: Line,
    minutes: dict[Pair, tuple[int, int]],
    waits: tuple[int, int],
    window: Window,
    id_of: dict[int, int],
) -> Timed:
    """The minutes of a line; not as in the feed where a drive or a wait takes a period more than
    the least one, since minutes are told but for whole periods."""
    stops = [id_of[it] for it in line.way]
    for way, runs in ((stops, found.forward), (stops[::-1], found.backward)):
        least = [minutes[(min(two), max(two))][0] for two in zip(way, way[1:])]
        for _, offsets in runs:
            times = (0, *offsets)
            drives = [b - a for a, b in zip(times[::2], times[1::2])]
            stands = [b - a for a, b in zip(times[1:-1:2], times[2::2])]
            far = [took - low for took, low in zip(drives, least)]
            far += [stand - waits[0] for stand in stands]
            if not found.why_not and max(far) >= window.period:
                return found._replace(why_not="a drive or a wait differs by a period")
    return found
