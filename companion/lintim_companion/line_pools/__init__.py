"""Pools of lines: candidates by shortest paths and by trees, and the choice among them by
demand."""
