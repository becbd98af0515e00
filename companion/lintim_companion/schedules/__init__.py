"""Vehicle schedules of least cost by SciPy, and potentials which prove that none costs less."""
