"""`lintim-why`: what is wrong with a dataset, where, and what would help."""

from argparse import Namespace
from pathlib import Path

from ..advice.explain import explain
from ..advice.nearest import nearest_name
from ..advice.words_told import WORDS
from ..faults import Refused
from ..manners import Deadline, Talk


def run(words: Namespace, talk: Talk) -> int:
    """Tells it, and gives 0 where nothing is to be said."""
    folder, given = words.folder, list(words.words)
    try:
        if not folder.is_dir() and nearest_name(str(folder), WORDS, 0.6):
            folder, given = Path("."), [str(folder), *given]
        told = explain(folder, given, Deadline(words.seconds), talk.progress)
    except OSError as why:
        raise Refused(f"{why.filename or folder} cannot be read: {why.strerror}") from None
    if not told.findings:
        return 0
    if told.report:
        talk.say(f"lintim make ends with: {told.report}")
    for finding in told.findings:
        for line in finding.lines():
            talk.say(line)
    return 1
