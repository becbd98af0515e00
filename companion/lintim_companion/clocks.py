"""Minutes of the day as people write them: 07:05, and 24:10 for ten minutes after midnight."""

from .faults import WrongWords


def clock(minute: float) -> str:
    """A minute of the day in words, as 07:05; hours go on after 24."""
    return f"{int(minute) // 60:02}:{int(minute) % 60:02}"


def minute_word(name: str, text: str) -> int:
    """A minute of the day as 430 or as 07:10; 24:10 is ten minutes after midnight."""
    hours, colon, minutes = text.partition(":")
    is_good = all(it.isascii() and it.isdigit() and len(it) < 6 for it in (hours, minutes or "0"))
    if not is_good or colon and (len(minutes) != 2 or minutes > "59"):
        raise WrongWords(f"{name} {text!r} is no time as 07:10 or 430")
    found = int(hours) * 60 + int(minutes) if colon else int(hours)
    if found > 10_080:
        raise WrongWords(f"{name} {text!r} is after 168:00, where a day of lintim ends")
    return found
