"""Periodic timetables that keep all bounds, found by CaDiCaL."""
