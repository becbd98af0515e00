"""Datasets of LinTim: read, written and judged."""
