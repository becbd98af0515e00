"""What tests of plans share: quiet searches, and HiGHS at once."""

from collections.abc import Generator

import pytest

from lintim_companion import highs, highs_worker
from lintim_companion.manners import Deadline, Progress

QUIET = Progress("test", None)


def time() -> Deadline:
    """A minute."""
    return Deadline(60)


@pytest.fixture
def at_once(monkeypatch: pytest.MonkeyPatch) -> None:
    """HiGHS in the process of the tests, which saves half a second each time."""

    def answers(problem: highs.Mixed, *_: object) -> Generator[highs.Answer, None, None]:
        yield highs.Answer(*highs_worker.solved(tuple(problem), 60))

    monkeypatch.setattr(highs, "_answers", answers)
