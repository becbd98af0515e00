"""A city that is larger than `lintim` takes."""

from made_city import HOUR, City, Files


def large(trips: int = 500, stops: int = 100) -> Files:
    """A city of 50,000 stop times: so many trips, each of which calls so many times."""
    city = City()
    rows, columns = 20, 25
    for row in range(rows):
        for column in range(columns):
            city.stop(f"{row}/{column}", column * 0.5, row * 0.5)
    city.weekly("week")
    lines = 20
    for line in range(lines):
        city.route(f"L{line}", 3 if line else 0)
        row = line % (rows - 3)
        way = [f"{row + at // columns}/{_snake(at, columns)}" for at in range(stops)]
        for number in range(trips // lines):
            start = 6 * HOUR + (number // 2) * 1800
            side = way if number % 2 == 0 else way[::-1]
            city.trip(
                f"{line}.{number}",
                f"L{line}",
                side,
                start,
                drive=60,
                stand=0,
                direction_id=number % 2,
            )
    return city.files()


def _snake(at: int, columns: int) -> int:
    """The column of a way that turns at the end of each row."""
    return at % columns if at // columns % 2 == 0 else columns - 1 - at % columns
