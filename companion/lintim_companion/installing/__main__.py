"""Writes what is made from tables into the folder that `./install` names:

    python3 -m lintim_companion.installing FOLDER
"""

import sys
from pathlib import Path

from ..registry import COMMANDS
from ..version import RELEASED, VERSION
from . import completions, manuals, program_words


def packages() -> list[str]:
    """The packages of Debian that the commands use, sorted."""
    return sorted({package.apt for it in COMMANDS for package in it.packages})


def generated() -> dict[str, str]:
    """The text of each file by its path below the prefix."""
    found = {
        "lib/lintim/help": program_words.help_text(),
        "lib/lintim/version": f"{VERSION}\n",
        "lib/lintim/released": f"{RELEASED}\n",
        "lib/lintim/packages": "".join(f"{name}\n" for name in packages()),
        "share/bash-completion/completions/lintim": completions.bash(),
        "share/zsh/site-functions/_lintim": completions.zsh(),
    }
    for name in COMMANDS:
        load = '. "${BASH_SOURCE[0]%/*}/lintim"\n'
        found[f"share/bash-completion/completions/{name.name}"] = load
    for command, text in completions.fish().items():
        found[f"share/fish/vendor_completions.d/{command}.fish"] = text
    for page, text in manuals.pages().items():
        found[f"share/man/man{manuals.SECTION}/{page}"] = text
    return found


def main(folder: Path) -> None:
    """Writes the pages of commands and the completion of shells below a folder."""
    for name, text in generated().items():
        path = folder / name
        path.parent.mkdir(parents=True, exist_ok=True)
        path.write_text(text, encoding="utf-8")


if __name__ == "__main__":
    main(Path(sys.argv[1]))
