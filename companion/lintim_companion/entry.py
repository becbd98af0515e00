"""What an environment of Python starts that `pip` installed this package into: each command, by the
name under which it was called."""

import signal

signal.signal(signal.SIGINT, signal.SIG_DFL)  # until the command has its own manners
import os  # noqa: E402
import sys  # noqa: E402


def main() -> int:
    """Runs the command, and gives its exit status."""
    listed = os.environ.get("PYTHONPATH", "").split(os.pathsep)
    here = {os.path.abspath(it) for it in listed if not os.path.isabs(it)}
    sys.path[:] = [it for it in sys.path if it not in here]
    from .manners import main as run

    return run(os.path.basename(sys.argv[0]))
