"""The files and keys of LinTim as data, where they are not those of `formats`: names, columns,
units. They are written down after its handbook, from memory, and were not tried on a release.

A file that LinTim writes in several forms has a row for each of them; which one stands there is
told by the number of cells."""

from typing import Annotated, Any, NamedTuple

from .. import formats
from ..cells import File, Fixed, Whole
from ..formats import Direction, EventKind, Frequency, Name, Order

GLOBAL_CONFIG = "../../Global-Config.cnf"
Id = Annotated[int, Whole(0, 10**9)]
NoId = Annotated[int, Whole(-1, 10**9)]
Units = Annotated[int, Whole(0, 10**9, "time units")]
Seconds = Annotated[int, Fixed(0, 10**9, "seconds")]
Passengers = Annotated[int, Fixed(0, 10**12, "customers")]


class Load(NamedTuple):
    """How many customers go over an edge, and how often it is to be driven; where nothing bounds
    that, some very large number may stand there."""

    edge_id: Annotated[Id, "the edge"]
    load: Annotated[int, Fixed(0, 10**12, "customers"), "the customers over it"]
    minimal_frequency: Annotated[Frequency, "how often it is driven at least"]
    maximal_frequency: Annotated[int, Whole(0, 10**18), "how often it is driven at most"]


class PeriodicEvent(NamedTuple):
    """A departure or an arrival that comes in each period."""

    event_id: Annotated[Id, "the event"]
    type: Annotated[EventKind, "which of the two it is"]
    stop_id: Annotated[Id, "where it is"]
    line_id: Annotated[Id, "its line"]
    passengers: Annotated[Passengers, "the customers at it"]
    line_direction: Annotated[Direction, "the direction of the line"]
    line_freq_repetition: Annotated[Order, "the number of its run, from 1"]


class PeriodicActivity(NamedTuple):
    """What leads from one periodic event to another."""

    activity_id: Annotated[Id, "the activity"]
    type: Annotated[Name, "its kind"]
    from_event: Annotated[Id, "where it begins"]
    to_event: Annotated[Id, "where it leads"]
    lower_bound: Annotated[Units, "the least time units"]
    upper_bound: Annotated[Units, "the greatest time units"]
    passengers: Annotated[Passengers, "the customers on it"]


class DayEvent(NamedTuple):
    """A departure or an arrival of the day."""

    event_id: Annotated[Id, "the event"]
    periodic_id: Annotated[Id, "the periodic event from which it comes"]
    type: Annotated[EventKind, "which of the two it is"]
    time: Annotated[Seconds, "its planned second of the day"]
    passengers: Annotated[Passengers, "the customers at it"]
    stop_id: Annotated[Id, "where it is"]


class DayActivity(NamedTuple):
    """What leads from one event of the day to another."""

    activity_id: Annotated[Id, "the activity"]
    periodic_id: Annotated[Id, "the periodic activity from which it comes"]
    type: Annotated[Name, "its kind"]
    from_event: Annotated[Id, "where it begins"]
    to_event: Annotated[Id, "where it leads"]
    lower_bound: Annotated[Seconds, "the least seconds"]
    upper_bound: Annotated[Seconds, "the greatest seconds"]
    passengers: Annotated[Passengers, "the customers on it"]


class Trip(NamedTuple):
    """One drive of a line at one time of the day."""

    start_ID: Annotated[Id, "the event with which it starts"]
    periodic_start_ID: Annotated[Id, "the periodic event of that"]
    start_station: Annotated[Id, "where it starts"]
    start_time: Annotated[Seconds, "when it starts"]
    end_ID: Annotated[Id, "the event with which it ends"]
    periodic_end_ID: Annotated[Id, "the periodic event of that"]
    end_station: Annotated[Id, "where it ends"]
    end_time: Annotated[Seconds, "when it ends"]
    line: Annotated[Id, "its line"]


class ScheduleRow(NamedTuple):
    """A trip of a vehicle, or an empty drive; -1 where a row has no line or no event."""

    circulation_ID: Annotated[NoId, "the circulation"]
    vehicle_ID: Annotated[NoId, "the vehicle"]
    trip_number: Annotated[NoId, "the number of the row among those of the vehicle"]
    type: Annotated[Name, "TRIP or EMPTY"]
    start_ID: Annotated[NoId, "the event with which it starts"]
    periodic_start_ID: Annotated[NoId, "the periodic event of that"]
    start_station: Annotated[NoId, "where it starts"]
    start_time: Annotated[Seconds, "when it starts"]
    end_ID: Annotated[NoId, "the event with which it ends"]
    periodic_end_ID: Annotated[NoId, "the periodic event of that"]
    end_station: Annotated[NoId, "where it ends"]
    end_time: Annotated[Seconds, "when it ends"]
    line: Annotated[NoId, "its line, -1 for an empty drive"]


class Delay(NamedTuple):
    """A delay that comes to an event or an activity from outside."""

    id: Annotated[Id, "the event, or the activity"]
    delay: Annotated[Seconds, "how late it is"]


class Time(NamedTuple):
    """When an event of the day takes place."""

    event_id: Annotated[Id, "the event"]
    time: Annotated[Seconds, "its second of the day"]


LOADS = File("basis/Load.giv", Load)
EVENTS = File("timetabling/Events-periodic.giv", PeriodicEvent)
ACTIVITIES = File("timetabling/Activities-periodic.giv", PeriodicActivity)
DAY_EVENTS = File("delay-management/Events-expanded.giv", DayEvent)
DAY_ACTIVITIES = File("delay-management/Activities-expanded.giv", DayActivity)
DAY_TIMES = File("delay-management/Timetable-expanded.tim", Time)
TRIPS = File("delay-management/Trips.giv", Trip)
SCHEDULE = File("vehicle-scheduling/Vehicle_Schedules.vs", ScheduleRow)
DISPOSITION = File("delay-management/Timetable-disposition.tim", Time)
EVENT_DELAYS = (
    File("delay-management/Delays-Events.giv", Delay),
    File("delay-management/Event-delays.giv", Delay),
)
ACTIVITY_DELAYS = (
    File("delay-management/Delays-Activities.giv", Delay),
    File("delay-management/Activity-delays.giv", Delay),
)

# What LinTim reads and nothing here does, so that it is told to be lost.
UNREAD = tuple(
    f"basis/{name}.giv"
    for name in "Headway Terminals Restricted-Turns Edge-Walk Station-Limits Depot Demand".split()
)

# How the value of a key is taken: as it is, one time unit as one minute, or from seconds.
AS_IT_IS, UNITS, SECONDS = "as it is", "time units", "seconds"
KEYS: dict[str, str] = {
    "gen_passengers_per_vehicle": AS_IT_IS,
    "lpool_costs_fixed": AS_IT_IS,
    "lpool_costs_length": AS_IT_IS,
    "lpool_costs_edges": AS_IT_IS,
    "period_length": UNITS,
    "ean_default_minimal_waiting_time": UNITS,
    "ean_default_maximal_waiting_time": UNITS,
    "ean_default_minimal_change_time": UNITS,
    "ean_default_maximal_change_time": UNITS,
    "DM_earliest_time": SECONDS,
    "DM_latest_time": SECONDS,
    "vs_turn_over_time": AS_IT_IS,
    "vs_vehicle_costs": AS_IT_IS,
}
# Keys of `lintim` alone, which LinTim passes over: they are carried along.
OWN_KEYS = (
    "load_spread",
    "concept_budget",
    "timetable_budget",
    "ean_headway",
    "vs_empty_costs",
    "dm_wait",
)


def plain_event(row: Any) -> formats.PeriodicEvent:
    """A periodic event without its customers."""
    cells = [cell for place, cell in enumerate(row) if len(row) == 6 or place != 4]
    return formats.PeriodicEvent(*cells)
