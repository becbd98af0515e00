"""What `lintim` takes at most of each kind, by the words of its report `too many ..`."""

LIMITS = {
    "stops": 1_000,
    "edges": 1_000,
    "lines": 200,
    "demand rows": 100_000,
    "frequency": 1_000,
    "periodic events": 4_000,
    "periodic activities": 200_000,
    "trips": 2_000,
    "expanded events": 100_000,
    "expanded activities": 500_000,
}
