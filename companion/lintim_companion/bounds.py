"""Bounds of time and memory for what reads files of a stranger: where more is needed, the command
ends with a reason."""

import resource
import signal
from collections.abc import Iterator
from contextlib import contextmanager
from typing import NoReturn

from .faults import Refused

EVERY = 0.5  # seconds between two alarms, of which the first may come where nothing can be raised


@contextmanager
def within(seconds: int, megabytes: int) -> Iterator[None]:
    """Refuses to go on where what is done here takes more seconds or more memory. It holds for
    this process alone: nothing may be started from here."""

    def late(_: int, __: object) -> NoReturn:
        raise Refused(f"it takes more than {seconds} seconds, and --seconds allows more")

    there = soft, hard = resource.getrlimit(resource.RLIMIT_AS)
    most = [it for it in (soft, megabytes * 1_000_000) if it != resource.RLIM_INFINITY]
    before = signal.signal(signal.SIGALRM, late)
    try:
        resource.setrlimit(resource.RLIMIT_AS, (min(most), hard))
        signal.setitimer(signal.ITIMER_REAL, seconds, EVERY)
        yield
    except MemoryError:
        resource.setrlimit(resource.RLIMIT_AS, there)  # what is said takes memory, too
        says = f"it takes more than {megabytes} MB of memory, and --memory allows more"
        raise Refused(says) from None
    finally:
        resource.setrlimit(resource.RLIMIT_AS, there)
        signal.setitimer(signal.ITIMER_REAL, 0)
        signal.signal(signal.SIGALRM, before)
