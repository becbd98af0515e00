"""One look for all pictures.

The six colours of lines and the colour of alarms are at least 23 apart (CIE 1976) for everyone, also
for people who see with two kinds of cones only (by the matrices of G. M. Machado, M. M. Oliveira and
L. A. F. Fernandes, A physiologically-based model for simulation of color vision deficiency, 2009),
and have a contrast of 3 or more on white paper and on the dark page. Further lines have the same
colours with other dashes.
"""

LINE_COLOURS = ("#1f9968", "#e67300", "#9900ff", "#536e80", "#ab29cc", "#9a85cc")
ALARM = "#e60045"
QUIET = "#808a94"
DASHES = ("solid", "dash", "dot", "dashdot")
LIGHT_PAGE, DARK_PAGE = "#ffffff", "#14181d"
LIGHT_TEXT, DARK_TEXT = "#1c2126", "#e6e9ec"
FONT = "DejaVu Sans, Verdana, sans-serif"


def line_colour(place: int) -> str:
    """The colour of the line in this place of all lines, from 0."""
    return LINE_COLOURS[place % len(LINE_COLOURS)]


def line_dash(place: int) -> str:
    """How its strokes are broken."""
    return DASHES[place // len(LINE_COLOURS) % len(DASHES)]
