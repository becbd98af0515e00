"""The files of a dataset and the keys of its settings, as data: columns, units, ranges, words.

Whatever reads, writes, explains or draws a file goes by this one table (docs/FORMAT.md says it in
words, docs/SETTINGS.md has the keys). A file is a class of rows: its fields are the columns, under
the names of the header with `_` for `-`, and beside each field stands what a cell may hold. A fixed
number, one with up to six digits after the point, is a whole number of millionths everywhere, so
nothing is rounded; a time is a whole number of minutes.
"""

from typing import Annotated, Any, NamedTuple

from .cells import MILLION, File, Fixed, Text, Whole, WholeOrWord, Word, use

MAX_HAND_BYTES = 64 * 2**20  # a file that people write may not be longer
CONFIG = "basis/Config.cnf"
STAGES = tuple("load cost concept ean timetable rollout vehicles disposition statistic".split())


def _id(of: str) -> Whole:
    return Whole(1, 10**9, id_of=of)


def _ref(of: str) -> Whole:
    return Whole(0, 10**9, id_of=of)


StopId = Annotated[int, _id("stop")]
EdgeId = Annotated[int, _id("edge")]
LineId = Annotated[int, _id("line")]
PeriodicEventId = Annotated[int, _id("periodic event")]
PeriodicActivityId = Annotated[int, _id("periodic activity")]
EventId = Annotated[int, _id("event of the day")]
ActivityId = Annotated[int, _id("activity of the day")]
TripId = Annotated[int, _id("trip")]
Order = Annotated[int, _id("")]
Frequency = Annotated[int, Whole(0, 1_000, "drives in a period")]
Minute = Annotated[int, Whole(0, 10**9, "minutes")]
Bound = Annotated[int, Whole(0, 100_000, "minutes")]
Minutes = Annotated[int, Whole(0, 10_000, "minutes")]
DayMinute = Annotated[int, Whole(0, 10_080, "minutes")]
Delay = Annotated[int, Whole(0, 1_000_000, "minutes")]
Money = Annotated[int, Fixed(0, 10**12, "units of money")]
EventKind = Annotated[str, Word(("departure", "arrival"))]
Direction = Annotated[str, Word((">", "<"))]
Name = Annotated[str, Text()]
# Types of routes 0 to 7, 11 and 12 of the GTFS Schedule reference; extended ones are numbers.
MODE_OF_TYPE = dict(
    zip(
        (0, 1, 2, 3, 4, 5, 6, 7, 11, 12),
        "tram metro rail bus ferry cable-tram gondola funicular trolleybus monorail".split(),
    )
)
MODES = tuple(MODE_OF_TYPE.values())


class Stop(NamedTuple):
    """A place where vehicles stop; only its id is read by `lintim`."""

    stop_id: Annotated[StopId, "the stop"]
    short_name: Annotated[Name, "a short name"]
    long_name: Annotated[Name, "a long name"]
    x_coordinate: Annotated[Name, "where it lies, from left to right (a longitude)"]
    y_coordinate: Annotated[Name, "where it lies, from below to above (a latitude)"]


class Edge(NamedTuple):
    """A direct way between two stops, which may be driven in both directions."""

    edge_id: Annotated[EdgeId, "the edge"]
    left_stop: Annotated[StopId, "one end of it"]
    right_stop: Annotated[StopId, "the other end"]
    length: Annotated[int, Fixed(0, 10_000, "units of length"), "how long it is, more than 0"]
    lower_bound: Annotated[Minutes, "the least minutes of a drive over it, at least 1"]
    upper_bound: Annotated[Minutes, "the greatest minutes of a drive over it"]


class Load(NamedTuple):
    """How many customers go over an edge, and how often it is to be driven."""

    edge_id: Annotated[EdgeId, "the edge"]
    load: Annotated[int, Fixed(0, 10**12, "customers"), "the customers over it"]
    minimal_frequency: Annotated[Frequency, "how often it is driven at least"]
    maximal_frequency: Annotated[Frequency, "how often it is driven at most"]


class Demand(NamedTuple):
    """How many customers go from one stop to another."""

    from_stop: Annotated[StopId, "where the customers start"]
    to_stop: Annotated[StopId, "where they want to go"]
    customers: Annotated[int, Fixed(0, 1_000_000, "customers"), "how many customers there are"]


class PoolRow(NamedTuple):
    """An edge of a line that might be driven."""

    line_id: Annotated[LineId, "the line"]
    order: Annotated[Order, "the place of the edge in the line, from 1"]
    edge_id: Annotated[EdgeId, "the edge"]


class LineCost(NamedTuple):
    """What a line costs for each time that it is driven in a period."""

    line_id: Annotated[LineId, "the line"]
    length: Annotated[
        int, Fixed(0, 10**12, "units of length"), "the lengths of its edges together"
    ]
    cost: Annotated[Money, "what it costs"]


class ConceptRow(NamedTuple):
    """An edge of a line, and how often the line is driven."""

    line_id: Annotated[LineId, "the line"]
    edge_order: Annotated[Order, "the place of the edge in the line, from 1"]
    edge_id: Annotated[EdgeId, "the edge"]
    frequency: Annotated[Frequency, "how often the line is driven"]


class BranchRow(NamedTuple):
    """A node of a branch tree, or a multiplier of the bound before it."""

    kind: Annotated[str, Word(("split", "empty", "bound", "mult", "point")), "what the row is"]
    id: Annotated[int, _ref(""), "a line, an edge, or how many multipliers follow"]
    value: Annotated[int, Whole(0, 10**9), "where the range is cut, or which sum is wrong"]
    multiplier: Annotated[Money, "the price of a missing drive over the edge"]


class PeriodicEvent(NamedTuple):
    """A departure or an arrival that comes in each period."""

    event_id: Annotated[PeriodicEventId, "the event"]
    type: Annotated[EventKind, "which of the two it is"]
    stop_id: Annotated[StopId, "where it is"]
    line_id: Annotated[LineId, "its line"]
    direction: Annotated[Direction, "the direction of the line"]
    repetition: Annotated[Order, "the number of its run, from 1"]


class PeriodicActivity(NamedTuple):
    """What leads from one periodic event to another, and the minutes between them."""

    activity_id: Annotated[PeriodicActivityId, "the activity"]
    type: Annotated[str, Word(("drive", "wait", "change", "sync", "headway")), "its kind"]
    from_event: Annotated[PeriodicEventId, "where it begins"]
    to_event: Annotated[PeriodicEventId, "where it leads"]
    lower_bound: Annotated[Bound, "the least minutes"]
    upper_bound: Annotated[Bound, "the greatest minutes"]


class PeriodicTime(NamedTuple):
    """When an event comes in each period."""

    event_id: Annotated[PeriodicEventId, "the event"]
    time: Annotated[Minute, "its minute, below the period"]


class DayEvent(NamedTuple):
    """A departure or an arrival of the day."""

    event_id: Annotated[EventId, "the event"]
    periodic_id: Annotated[PeriodicEventId, "the periodic event from which it comes"]
    type: Annotated[EventKind, "which of the two it is"]
    time: Annotated[Minute, "its planned minute of the day"]
    stop_id: Annotated[StopId, "where it is"]


class DayActivity(NamedTuple):
    """What leads from one event of the day to another."""

    activity_id: Annotated[ActivityId, "the activity"]
    periodic_id: Annotated[PeriodicActivityId, "the periodic activity from which it comes"]
    type: Annotated[str, Word(("drive", "wait", "change", "sync")), "its kind"]
    from_event: Annotated[EventId, "where it begins"]
    to_event: Annotated[EventId, "where it leads"]
    lower_bound: Annotated[Bound, "the least minutes"]
    upper_bound: Annotated[Bound, "the greatest minutes"]


class Trip(NamedTuple):
    """One drive of a line at one time of the day."""

    start_id: Annotated[EventId, "the event with which it starts"]
    periodic_start_id: Annotated[PeriodicEventId, "the periodic event of that"]
    start_stop: Annotated[StopId, "where it starts"]
    start_time: Annotated[Minute, "when it starts"]
    end_id: Annotated[EventId, "the event with which it ends"]
    periodic_end_id: Annotated[PeriodicEventId, "the periodic event of that"]
    end_stop: Annotated[StopId, "where it ends"]
    end_time: Annotated[Minute, "when it ends"]
    line: Annotated[LineId, "its line"]


class ScheduleRow(NamedTuple):
    """A trip of a vehicle, or the empty drive between two of them."""

    circulation: Annotated[int, _id("vehicle"), "the number of the vehicle"]
    vehicle: Annotated[int, _id("vehicle"), "the same number"]
    number: Annotated[Order, "the number of the row among those of the vehicle, from 1"]
    type: Annotated[str, Word(("TRIP", "EMPTY")), "which of the two it is"]
    start_id: Annotated[EventId, "the event with which it starts"]
    periodic_start_id: Annotated[PeriodicEventId, "the periodic event of that"]
    start_stop: Annotated[StopId, "where it starts"]
    start_time: Annotated[Minute, "when it starts"]
    end_id: Annotated[EventId, "the event with which it ends"]
    periodic_end_id: Annotated[PeriodicEventId, "the periodic event of that"]
    end_stop: Annotated[StopId, "where it ends"]
    end_time: Annotated[Minute, "when it ends"]
    line: Annotated[int, _ref("line"), "its line, 0 for an empty drive"]


class Potential(NamedTuple):
    """Two numbers of a trip which prove, with those of all trips, that a schedule is cheapest."""

    trip: Annotated[TripId, "the number of the trip, from 1"]
    u: Annotated[Money, "its part in the links to later trips"]
    v: Annotated[Money, "its part in the links from earlier trips"]


class EventDelay(NamedTuple):
    """A delay that comes to an event from outside."""

    event_id: Annotated[EventId, "the event"]
    delay: Annotated[Delay, "how late it is at least"]


class ActivityDelay(NamedTuple):
    """A delay that comes to an activity from outside."""

    activity_id: Annotated[ActivityId, "the activity"]
    delay: Annotated[Delay, "how much longer it takes"]


class DisposedTime(NamedTuple):
    """When an event takes place on a day with delays."""

    event_id: Annotated[EventId, "the event"]
    time: Annotated[int, Whole(0, 10**18, "minutes"), "its minute of the day"]


class Reason(NamedTuple):
    """Why an event of a disposition is no earlier."""

    event_id: Annotated[EventId, "the event"]
    reason: Annotated[str, Word(("source", "activity", "turn")), "the kind of reason"]
    activity_id: Annotated[int, _ref("activity of the day"), "the activity, else 0"]


class Value(NamedTuple):
    """A value of the statistic."""

    key: Annotated[Name, "its name"]
    value: Annotated[int, Fixed(0, 10**31), "the value"]


class WaitRow(NamedTuple):
    """The cost of a waiting decision, what is decided of a change, or a node of its tree."""

    kind: Annotated[str, Word(("cost", "keep", "drop", "split", "leaf")), "what the row is"]
    id: Annotated[int, _ref("activity of the day"), "the change, else 0"]
    value: Annotated[int, Whole(0, 10**18, "minutes"), "the cost, else 0"]


class LineName(NamedTuple):
    """What a line is called; read by the companion alone."""

    line_id: Annotated[LineId, "the line"]
    short_name: Annotated[Name, "what stands on its vehicles, as `12` or `S3`"]
    long_name: Annotated[Name, "its long name, or nothing"]
    colour: Annotated[Name, "six hexadecimal digits for red, green and blue, or nothing"]
    mode: Annotated[int | str, WholeOrWord(Whole(0, 1_799), MODES), "what drives it"]
    agency: Annotated[Name, "whose line it is, or nothing"]
    time_zone: Annotated[Name, "the time zone of its times, as `Europe/Berlin`, or nothing"]


class JourneyRow(NamedTuple):
    """An event of a journey, or one that can be reached before it ends."""

    kind: Annotated[str, Word(("ride", "reached")), "what the row is"]
    event: Annotated[EventId, "the event"]
    stop: Annotated[StopId, "where it is"]
    time: Annotated[int, Whole(0, 10**18, "minutes"), "when it is"]


STOPS = File("basis/Stop.giv", Stop)
EDGES = File("basis/Edge.giv", Edge)
POOL = File("basis/Pool.giv", PoolRow)
DEMAND = File("basis/OD.giv", Demand)
GIVEN_LOADS = File("basis/Load.giv", Load)
EVENT_DELAYS = File("delay-management/Event-delays.giv", EventDelay)
ACTIVITY_DELAYS = File("delay-management/Activity-delays.giv", ActivityDelay)
LOADS = File("line-planning/Load.giv", Load, "load")
LINE_COSTS = File("basis/Pool-Cost.giv", LineCost, "cost")
CONCEPT = File("line-planning/Line-Concept.lin", ConceptRow, "concept")
CONCEPT_TREE = File("line-planning/Line-Concept.cert", BranchRow, "concept")
PERIODIC_EVENTS = File("timetabling/Events-periodic.giv", PeriodicEvent, "ean")
PERIODIC_ACTIVITIES = File("timetabling/Activities-periodic.giv", PeriodicActivity, "ean")
TIMETABLE = File("timetabling/Timetable-periodic.tim", PeriodicTime, "timetable")
DAY_EVENTS = File("delay-management/Events-expanded.giv", DayEvent, "rollout")
DAY_ACTIVITIES = File("delay-management/Activities-expanded.giv", DayActivity, "rollout")
TRIPS = File("delay-management/Trips.giv", Trip, "rollout")
SCHEDULE = File("vehicle-scheduling/Vehicle_Schedules.vs", ScheduleRow, "vehicles")
POTENTIALS = File("vehicle-scheduling/Vehicle_Schedules.cert", Potential, "vehicles")
DISPOSITION = File("delay-management/Timetable-disposition.tim", DisposedTime, "disposition")
REASONS = File("delay-management/Timetable-disposition.cert", Reason, "disposition")
STATISTIC = File("statistic/statistic.sta", Value, "statistic")
PINNED_CONCEPT = File("pinned/Line-Concept.lin", ConceptRow)
PINNED_TREE = File("pinned/Line-Concept.cert", BranchRow)
PINNED_TIMETABLE = File("pinned/Timetable-periodic.tim", PeriodicTime)
PINNED_SCHEDULE = File("pinned/Vehicle_Schedules.vs", ScheduleRow)
PINNED_POTENTIALS = File("pinned/Vehicle_Schedules.cert", Potential)
WAITS = File("waiting/Waits.cert", WaitRow)
LINE_NAMES = File("import/Line-Name.giv", LineName)

JOURNEY = File("", JourneyRow)  # what `lintim journey` prints, which is no file
FILES: tuple[File[Any], ...] = tuple(
    it for it in [*globals().values()] if isinstance(it, File) and it.name
)


OneCost = Annotated[int, Fixed(0, 1_000_000, "units of money")]
Switch = Annotated[str, Word(("no", "yes"))]
WAIT = WholeOrWord(Whole(0, 10_000, "minutes"), ("all", "none"))
OF_SCHEDULES = ("vehicles", "statistic", "pinned-vehicles")
OF_PERIOD = ("ean", "timetable", "rollout", "statistic", "pinned-timetable")


class Settings(NamedTuple):
    """The keys of `basis/Config.cnf`, with what each one is where no row has it."""

    last_stage: Annotated[str, Word(STAGES), use("the last stage that runs")] = "statistic"
    load_source: Annotated[
        str, Word(("od", "file")), use("loads come from demand, or from a file of loads", "load")
    ] = "od"
    gen_passengers_per_vehicle: Annotated[
        int, Whole(1, 100_000, "customers"), use("how many customers a vehicle takes", "load")
    ] = 70
    load_spread: Annotated[
        Frequency, use("how many drives more than needed an edge may have", "load")
    ] = 3
    lpool_costs_fixed: Annotated[OneCost, use("what each line costs", "cost")] = 10 * MILLION
    lpool_costs_length: Annotated[
        int,
        Fixed(0, 10_000, "units of money"),
        use("what a line costs for each unit of length", "cost"),
    ] = MILLION
    lpool_costs_edges: Annotated[OneCost, use("what a line costs for each edge", "cost")] = 0
    concept_budget: Annotated[
        int, Whole(1, 20_000, "entries"), use("how many entries a search may take", "concept")
    ] = 5_000
    period_length: Annotated[
        int, Whole(1, 720, "minutes"), use("after how long the timetable comes again", *OF_PERIOD)
    ] = 60
    ean_default_minimal_waiting_time: Annotated[
        Minutes, use("how long a vehicle stands at a stop at least", "ean")
    ] = 1
    ean_default_maximal_waiting_time: Annotated[
        Minutes,
        use(
            "how long a vehicle stands at a stop at most",
            "ean",
            not_below="ean_default_minimal_waiting_time",
        ),
    ] = 3
    ean_default_minimal_change_time: Annotated[
        Minutes, use("how long a change between lines takes at least", "ean")
    ] = 3
    ean_default_maximal_change_time: Annotated[
        Minutes,
        use(
            "how long a change between lines takes at most",
            "ean",
            not_below="ean_default_minimal_change_time",
        ),
    ] = 62
    ean_headway: Annotated[
        int,
        Whole(0, 360, "minutes"),
        use(
            "how far apart departures over one edge are at least",
            "ean",
            at_most_half_of="period_length",
        ),
    ] = 0
    timetable_budget: Annotated[
        int, Whole(1, 1_000_000, "entries"), use("how many entries a search may take", "timetable")
    ] = 100_000
    DM_earliest_time: Annotated[DayMinute, use("when the day begins", "rollout")] = 300
    DM_latest_time: Annotated[
        DayMinute, use("when the last trip may start", "rollout", not_below="DM_earliest_time")
    ] = 1_380
    vs_turn_over_time: Annotated[
        Minutes,
        use("what a vehicle needs between two trips", "vehicles", "disposition", "pinned-vehicles"),
    ] = 5
    vs_vehicle_costs: Annotated[OneCost, use("what a vehicle costs", *OF_SCHEDULES)] = 100 * MILLION
    vs_empty_costs: Annotated[OneCost, use("what an empty minute costs", *OF_SCHEDULES)] = MILLION
    dm_wait: Annotated[int | str, WAIT, use("how long a change is waited for", "disposition")] = 3
    pin_concept: Annotated[Switch, use("the concept is the pinned one")] = "no"
    pin_timetable: Annotated[Switch, use("the timetable is the pinned one")] = "no"
    pin_vehicles: Annotated[Switch, use("the schedule is the pinned one")] = "no"


# What `lintim-passengers` writes: tables that nothing reads, beside those of a dataset.
Customers = Annotated[int, Fixed(0, 10**12, "customers")]


class StopUse(NamedTuple):
    """An event of the day, and the customers at it."""

    trip: Annotated[TripId, "the number of the trip, from 1"]
    event_id: Annotated[EventId, "the event"]
    stop_id: Annotated[StopId, "where it is"]
    time: Annotated[int, Whole(0, 10**18, "minutes"), "its minute of the day"]
    boarding: Annotated[Customers, "those who get on"]
    alighting: Annotated[Customers, "those who get off"]


class DriveUse(NamedTuple):
    """A drive of the day, and the customers in it."""

    trip: Annotated[TripId, "the number of the trip, from 1"]
    line: Annotated[LineId, "its line"]
    activity_id: Annotated[ActivityId, "the drive"]
    load: Annotated[Customers, "the customers in it"]


class TripUse(NamedTuple):
    """A trip of the day, and the customers in it."""

    trip: Annotated[TripId, "the number of the trip, from 1"]
    line: Annotated[LineId, "its line"]
    boarding: Annotated[Customers, "those who get on somewhere"]
    greatest_load: Annotated[Customers, "the customers in its fullest drive"]
    over_capacity: Annotated[Customers, "by how many its fullest drive is over the capacity"]


class ChangeUse(NamedTuple):
    """A change of the day, and the customers who take it."""

    activity_id: Annotated[ActivityId, "the change"]
    customers: Annotated[Customers, "those who take it"]


class MissedUse(NamedTuple):
    """An arrival of the day, and the customers who miss a change there."""

    event_id: Annotated[EventId, "the arrival"]
    stop_id: Annotated[StopId, "where it is"]
    customers: Annotated[Customers, "those who miss a change"]


class PairUse(NamedTuple):
    """Two stops, and the customers from one to the other."""

    from_stop: Annotated[StopId, "where the customers start"]
    to_stop: Annotated[StopId, "where they want to go"]
    customers: Annotated[Customers, "those with a journey by the plan"]
    minutes_late: Annotated[Customers, "by how many minutes they arrive late, together"]


class HourShare(NamedTuple):
    """An hour of the day, and how much of the demand it has: a row of the file that --profile names."""

    hour: Annotated[int, Whole(0, 168, "hours"), "the hour of the day"]
    share: Annotated[
        int, Whole(0, 100_000, "hundredths"), "100 where a period has the demand of basis/OD.giv"
    ]


STOP_USES = File("passengers/Stops.csv", StopUse)
DRIVE_USES = File("passengers/Drives.csv", DriveUse)
TRIP_USES = File("passengers/Trips.csv", TripUse)
CHANGE_USES = File("passengers/Changes.csv", ChangeUse)
MISSED_USES = File("passengers/Missed.csv", MissedUse)
PAIR_USES = File("passengers/Pairs.csv", PairUse)
PASSENGER_VALUES = File("passengers/Values.csv", Value)
