"""Why a command cannot go on: faults that are told in one line, and never as a traceback."""


class Refused(Exception):
    """Why a command cannot go on, in one line."""


class WrongWords(Refused):
    """Words of the command line that say nothing, or do not go together."""


class Missing(Refused):
    """A file of the dataset that is not there."""

    def __init__(self, name: str, hint: str = "") -> None:
        super().__init__(f"{name} is missing" + (f": {hint}" if hint else ""))
        self.name = name


class TooLong(Refused):
    """A file that would be longer than `lintim` reads it."""


class RowRefused(Refused):
    """A row that breaks a rule of its file; `why` has the words of `lintim` for the rule, `row`
    counts as `lintim` does, without empty lines, and `line` as an editor does."""

    def __init__(self, name: str, row: int, line: int, why: str, found: str = "") -> None:
        at = "" if row == line else f"line {line} of the file"
        more = ", ".join(part for part in (found, at) if part)
        super().__init__(f"{name} row {row}: {why}" + (f" ({more})" if more else ""))
        self.name, self.row, self.line, self.why, self.found = name, row, line, why, found


class ValueRefused(Refused):
    """A value of a key that is not allowed."""

    def __init__(self, key: str, found: str) -> None:
        super().__init__(f"value of {key} ({found})")
        self.key = key


class NoProgram(Refused):
    """A program or a package that is not there."""


class Stopped(BaseException):
    """The user, or the system, wants the command to end: by the number of a signal."""

    def __init__(self, signal: int) -> None:
        super().__init__(signal)
        self.signal = signal
