"""What all explanations go by: the copy, what `lintim` said, and the time that is left."""

from dataclasses import dataclass, field
from functools import cached_property

from .. import settings
from ..faults import Refused
from ..formats import CONFIG, DAY_ACTIVITIES, DAY_EVENTS, Settings
from ..manners import Deadline, Progress
from ..program import Answer
from ..settings import Config
from .copies import Copy
from .findings import add_rows, write_line
from .names import Names


@dataclass
class Context:
    """A dataset that is looked at."""

    copy: Copy
    answer: Answer
    deadline: Deadline
    progress: Progress
    names: Names = field(init=False)

    def __post_init__(self) -> None:
        self.names = Names(self.copy)

    @cached_property
    def config(self) -> Config:
        """The settings; all defaults where they are refused."""
        try:
            return settings.read(self.copy.folder)
        except Refused:
            return Config(Settings(), [])

    @property
    def settings(self) -> Settings:
        """The values of all keys."""
        return self.config.values

    def set_key(self, key: str, value: int | str) -> str:
        """What is to be written so that a key has a value: its row, or a new one."""
        row = self.config.row_of(key)
        if row is None:
            return add_rows(CONFIG, f"{key}; {value}")
        return write_line(row.name, row.line, f"{key}; {value}")

    def day_count(self, kind: str) -> int:
        """How many events or activities the day has that was made."""
        return len(self.names.made(DAY_EVENTS if kind == "event" else DAY_ACTIVITIES))

    def last_with(self, *rows: str) -> str:
        """The last line of the report with rows more in the settings."""
        return self.copy.with_settings(*rows).last
