"""The one look of all pictures: colours that everyone can tell apart, on light and on dark."""

from itertools import combinations
from pathlib import Path

from lintim_companion.pictures import style

# Machado, Oliveira and Fernandes (2009), severity 1: cones of one kind are missing
EYES = (
    ((1, 0, 0), (0, 1, 0), (0, 0, 1)),
    (
        (0.152286, 1.052583, -0.204868),
        (0.114503, 0.786281, 0.099216),
        (-0.003882, -0.048116, 1.051998),
    ),
    (
        (0.367322, 0.860646, -0.227968),
        (0.280085, 0.672501, 0.047413),
        (-0.011820, 0.042940, 0.968881),
    ),
    (
        (1.255528, -0.076749, -0.178779),
        (-0.078411, 0.930809, 0.147602),
        (0.004733, 0.691367, 0.303900),
    ),
)
Three = tuple[float, float, float]


def linear(colour: str) -> list[float]:
    """Red, green and blue as amounts of light."""
    parts = [int(colour[at : at + 2], 16) / 255 for at in (1, 3, 5)]
    return [it / 12.92 if it <= 0.04045 else ((it + 0.055) / 1.055) ** 2.4 for it in parts]


def luminance(colour: str) -> float:
    red, green, blue = linear(colour)
    return 0.2126 * red + 0.7152 * green + 0.0722 * blue


def seen(colour: str, eye: int) -> Three:
    """A colour in the space of CIE 1976, as somebody sees it."""
    light = linear(colour)
    red, green, blue = (
        min(1.0, max(0.0, sum(a * b for a, b in zip(row, light)))) for row in EYES[eye]
    )
    x = (0.4124 * red + 0.3576 * green + 0.1805 * blue) / 0.95047
    y = 0.2126 * red + 0.7152 * green + 0.0722 * blue
    z = (0.0193 * red + 0.1192 * green + 0.9505 * blue) / 1.08883
    f, g, h = (t ** (1 / 3) if t > 0.008856 else 7.787 * t + 16 / 116 for t in (x, y, z))
    return 116 * g - 16, 500 * (f - g), 200 * (g - h)


def test_colours_can_be_told_apart_by_everyone_on_light_and_dark() -> None:
    colours = (*style.LINE_COLOURS, style.ALARM)
    for one, other in combinations(colours, 2):
        for eye in range(len(EYES)):
            apart = sum((a - b) ** 2 for a, b in zip(seen(one, eye), seen(other, eye))) ** 0.5
            assert apart > 23, (one, other, eye, apart)
    for colour in colours:
        for page in (style.LIGHT_PAGE, style.DARK_PAGE):
            both = sorted((luminance(colour) + 0.05, luminance(page) + 0.05))
            assert both[1] / both[0] >= 3, (colour, page)


def test_the_page_has_the_colours_of_the_look() -> None:
    css = (Path(style.__file__).parent / "page.css").read_text()
    for colour in (style.LIGHT_PAGE, style.DARK_PAGE, style.LIGHT_TEXT, style.DARK_TEXT):
        assert colour in css
