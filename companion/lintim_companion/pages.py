"""What pages show of the table of commands."""

from .registry import COMMANDS


def command_table() -> list[str]:
    """The lines of the table of commands in the README."""
    lines = [
        "| Command | What it does | Reads | Writes | Needs | Example |",
        "|---|---|---|---|---|---|",
    ]
    for it in COMMANDS:
        needs = ", ".join(f"`{package.apt}`" for package in it.packages) or "nothing more"
        cells = (f"`{it.name}`", it.says, it.reads, it.writes, needs, f"`{it.example}`")
        lines.append(f"| {' | '.join(cells)} |")
    return lines
