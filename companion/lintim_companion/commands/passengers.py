"""`lintim-passengers`: the customers of a day in its trips, planned or late."""

from argparse import Namespace
from pathlib import Path

from .. import dataset, files, program
from ..cells import MILLION
from ..formats import (
    CHANGE_USES,
    DAY_ACTIVITIES,
    DAY_EVENTS,
    DISPOSITION,
    DRIVE_USES,
    MISSED_USES,
    PAIR_USES,
    PASSENGER_VALUES,
    STOP_USES,
    TRIP_USES,
    TRIPS,
)
from ..manners import Talk
from ..passengers.demand import read_demand
from ..passengers.flows import flows_of
from ..passengers.net import Day, Net, disposed_times
from ..passengers.told import Uses, uses, value_rows, values

FULLEST = 5  # trips that are named
TABLES = (STOP_USES, DRIVE_USES, TRIP_USES, CHANGE_USES, MISSED_USES, PAIR_USES)


def run(words: Namespace, talk: Talk) -> int:
    """Reads the day, lets the customers go, and writes where they are."""
    data = dataset.read(words.folder)
    needed = (DAY_EVENTS, DAY_ACTIVITIES, TRIPS, *((DISPOSITION,) if words.disposed else ()))
    program.see_kept(words.folder, *needed)
    for file in (*TABLES, PASSENGER_VALUES):
        files.see_writable(words.folder, file.name)
    demand = read_demand(data, words.profile)
    day = Day(data)
    planned = Net(day, day.planned, words.penalty)
    late = Net(day, disposed_times(data), words.penalty) if words.disposed else None
    flows = flows_of(planned, demand, late, talk.progress.tell)
    found = uses(data, late or planned, flows, words.capacity or 0)
    told = values(flows, found)
    write(words.folder, found, told, talk)
    say(found, told, words, talk)
    return 0


def write(folder: Path, found: Uses, told: dict[str, int], talk: Talk) -> None:
    """Writes all tables."""
    talk.write(folder, STOP_USES, found.stops)
    talk.write(folder, DRIVE_USES, found.drives)
    talk.write(folder, TRIP_USES, found.trips)
    talk.write(folder, CHANGE_USES, found.changes)
    talk.write(folder, MISSED_USES, found.missed)
    talk.write(folder, PAIR_USES, found.pairs)
    talk.write(folder, PASSENGER_VALUES, value_rows(told))


def say(found: Uses, told: dict[str, int], words: Namespace, talk: Talk) -> None:
    """Tells what was found."""
    number = {key: value / MILLION for key, value in told.items()}
    times = "disposed" if words.disposed else "planned"
    who = f"{number['customers']:.1f} customers by {times} times"
    no = number["customers_without_journey"]
    talk.say(f"passengers: {who}; {no:.1f} have no journey by the plan")
    mean, most = number["minutes_mean"], number["minutes_95_percent"]
    changes, direct = number["changes_mean"], number["share_direct"]
    talk.say(
        f"passengers: {mean:.2f} minutes in the mean, 95 % within {most:.0f};"
        f" {changes:.3f} changes, {direct:.1%} direct"
    )
    if words.disposed:
        late, tail = number["minutes_late_mean"], number["minutes_late_95_percent"]
        talk.say(f"passengers: {late:.3f} minutes late in the mean, 95 % within {tail:.0f}")
        missed, places = number["customers_missed_change"], len(found.missed)
        lost = number["customers_stranded"]
        talk.say(
            f"passengers: {missed:.1f} miss a change, at {places} arrivals; {lost:.1f} of them"
            " do not arrive any more"
        )
    fullest = sorted(found.trips, key=lambda it: (-it.greatest_load, it.trip))[:FULLEST]
    named = ", ".join(f"{it.trip} ({it.greatest_load / MILLION:.1f})" for it in fullest)
    talk.say(f"passengers: the fullest trips, with the customers of their fullest drives: {named}")
    if words.capacity:
        over = sum(it.over_capacity > 0 for it in found.trips)
        talk.say(
            f"passengers: {over} of {len(found.trips)} trips have more than {words.capacity}"
            " somewhere; this is told and not kept: nobody is left at a stop"
        )
    talk.say("passengers: written to the folder passengers")
