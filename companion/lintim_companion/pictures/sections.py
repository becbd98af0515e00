"""The sections of a plan, in the order of the page."""

from .circle import circle_section
from .delays import delay_section
from .network import line_section, network_section
from .plan import Plan
from .scene import Section
from .space_time import space_time_section
from .vehicles import vehicle_section

MAKERS = (
    network_section,
    line_section,
    circle_section,
    space_time_section,
    vehicle_section,
    delay_section,
)


def sections_of(plan: Plan) -> list[Section]:
    """The sections of one dataset."""
    return [make(plan) for make in MAKERS]
