"""Datasets for networkx: the network of stops and edges, and networks of events."""

from typing import TYPE_CHECKING

import networkx

from . import formats
from .faults import Refused

if TYPE_CHECKING:
    from .dataset import Dataset


def graph_of(data: "Dataset", of: str) -> networkx.MultiGraph:
    """The `network`, or the events and activities of the `period` or the `day`. Nodes and edges
    have the columns of their rows; edges have their ids as keys."""
    if of == "network":
        return _network(data)
    if of == "period":
        return _period(data)
    if of == "day":
        return _day(data)
    raise Refused(f"there is no graph {of}, but network, period and day")


def _network(data: "Dataset") -> networkx.MultiGraph:
    graph = networkx.MultiGraph()
    graph.add_nodes_from((stop.stop_id, stop._asdict()) for stop in data[formats.STOPS])
    loads = {load.edge_id: load._asdict() for load in data.get(formats.LOADS)}
    for edge in data[formats.EDGES]:
        says = edge._asdict() | loads.get(edge.edge_id, {})
        graph.add_edge(edge.left_stop, edge.right_stop, edge.edge_id, **says)
    return graph


def _period(data: "Dataset") -> networkx.MultiDiGraph:
    graph = networkx.MultiDiGraph()
    graph.add_nodes_from((at.event_id, at._asdict()) for at in data[formats.PERIODIC_EVENTS])
    for timed in data.get(formats.TIMETABLE):
        graph.nodes[timed.event_id]["time"] = timed.time
    for by in data[formats.PERIODIC_ACTIVITIES]:
        graph.add_edge(by.from_event, by.to_event, by.activity_id, **by._asdict())
    return graph


def _day(data: "Dataset") -> networkx.MultiDiGraph:
    graph = networkx.MultiDiGraph()
    graph.add_nodes_from((at.event_id, at._asdict()) for at in data[formats.DAY_EVENTS])
    for timed in data.get(formats.DISPOSITION):
        graph.nodes[timed.event_id]["disposed_time"] = timed.time
    for by in data[formats.DAY_ACTIVITIES]:
        graph.add_edge(by.from_event, by.to_event, by.activity_id, **by._asdict())
    return graph
