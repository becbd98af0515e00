"""Demand from what is known of a city: always a guess, and called so."""
