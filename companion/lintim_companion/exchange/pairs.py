"""Opposite edges of a network whose edges lead one way."""

from ..formats import Edge


def opposite(edges: list[Edge]) -> dict[int, int]:
    """Pairs of opposite edges of equal length and bounds, both ways."""
    waiting: dict[tuple[int, ...], list[int]] = {}
    twins: dict[int, int] = {}
    for edge in sorted(edges):
        left, right, *more = edge[1:]
        found = waiting.get((right, left, *more))
        if found:
            other = found.pop(0)
            twins[edge.edge_id], twins[other] = other, edge.edge_id
        else:
            waiting.setdefault((left, right, *more), []).append(edge.edge_id)
    return twins
