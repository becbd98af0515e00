"""Feeds of the General Transit Feed Specification (GTFS Schedule): reading, checking, writing."""
