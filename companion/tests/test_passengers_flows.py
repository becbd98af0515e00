"""Flows of customers: at each event as many come as go, whatever the demand is."""

from pathlib import Path

import numpy as np
import pytest
from hypothesis import given, settings
from hypothesis import strategies as st

from gtfs_cases import late_day
from lintim_companion import dataset, formats
from lintim_companion.cells import MILLION
from lintim_companion.passengers.flows import Demand, Flows, flows_of, spread
from lintim_companion.passengers.net import Day, Net, asked, disposed_times, ways_to


@pytest.fixture(scope="module", params=["loops", "seed 47", "market-town"])
def nets(
    request: pytest.FixtureRequest, tmp_path_factory: pytest.TempPathFactory, lintim: str
) -> list[Net]:
    """A day by its planned and by its disposed times."""
    folder = late_day(tmp_path_factory.mktemp("flows") / "day", request.param)
    data = dataset.read(folder)
    day = Day(data)
    assert formats.STOPS in data
    return [Net(day, day.planned), Net(day, disposed_times(data))]


def demand_of(draw: st.DataObject, day: Day) -> Demand:
    """Some demand over some minutes around the day."""
    stops = st.sampled_from(sorted({*day.stops.tolist()}))
    pairs = st.tuples(stops, stops).filter(lambda two: two[0] != two[1])
    wanted = draw.draw(st.dictionaries(pairs, st.integers(0, 5_000 * MILLION), max_size=8))
    begin = int(day.planned.min()) - draw.draw(st.integers(0, 30))
    length = draw.draw(st.integers(1, int(day.planned.max()) - begin + 30))
    weights = np.full(length, draw.draw(st.integers(0, 300)))
    return Demand(wanted, max(0, begin), weights, draw.draw(st.sampled_from((7, 20, 60))))


def see_conserved(day: Day, flows: Flows) -> None:
    """Sees that as many come to each event as go from it."""
    into, out = flows.starts + flows.resumed, flows.ends + flows.left
    np.add.at(into, day.heads, flows.by)
    np.add.at(out, day.tails, flows.by)
    assert (into == out).all() and (flows.by >= 0).all()


@settings(max_examples=25)
@given(draw=st.data())
def test_flows_are_conserved_at_every_event(nets: list[Net], draw: st.DataObject) -> None:
    planned, late = nets
    demand = demand_of(draw, planned.day)
    sums = np.cumsum(np.append([0], demand.weights))
    wish = [np.rint(it * sums[-1] / (100 * demand.period)) for it in demand.pairs.values()]
    for flows in (flows_of(planned, demand), flows_of(planned, demand, late)):
        see_conserved(planned.day, flows)
        assert int(flows.starts.sum()) + flows.without == int(sum(wish))
        assert int(flows.ends.sum()) + flows.stranded == int(flows.starts.sum())
        assert int(flows.minutes.sum()) == int(flows.ends.sum()) == sum(flows.changes.values())
        assert int(flows.left.sum()) == int(flows.resumed.sum()) + flows.stranded


@settings(max_examples=25)
@given(draw=st.data())
def test_each_customer_takes_the_journey_that_is_told(nets: list[Net], draw: st.DataObject) -> None:
    net = nets[0]
    day, chance = net.day, st.integers(0, 10**6)
    stops = sorted({*day.stops.tolist()})
    start, goal = (stops[draw.draw(chance) % len(stops)] for _ in range(2))
    begin = int(day.planned.min()) + draw.draw(st.integers(0, 200))
    if start == goal:
        return
    flows = flows_of(net, Demand({(start, goal): MILLION}, begin, np.array([100]), 1))
    events = asked(ways_to(net, [goal]), start, 0, begin)
    assert np.flatnonzero(flows.starts).tolist() == events[:1]
    assert np.flatnonzero(flows.ends).tolist() == events[-1:]
    assert flows.without == (0 if events else MILLION)


def test_what_is_rounded_is_made_up_for_later() -> None:
    waiting = spread(np.array([MILLION, 1]), np.full(60, 100), 60)
    assert waiting.sum(axis=0).tolist() == [MILLION, 1] and waiting.min() == 0
