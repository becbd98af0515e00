"""Completion for bash, zsh and fish: words, numbers of demos, and the stops of the dataset in whose
folder one stands."""

from ..registry import COMMANDS, Command, Word
from .program_words import PROGRAM_WORDS, STARTER_WORDS, names

# Prints the stops of the dataset as `id:name`, by a name that has no colon in it.
STOPS = (
    "sed -n 's/^[[:space:]]*\\([0-9][0-9]*\\)[[:space:]]*;[^;]*;[[:space:]]*\\([^;:]*[^;: ]\\)"
    "[^;]*;.*/\\1:\\2/p' basis/Stop.giv 2> /dev/null"
)
DEMOS = "1 2 3 4 5 6 7 8"
PENALTIES = "3 10 30"
BUDGETS = "10000 1000000"
WAYS = "planned disposed"


def _words_of(command: Command) -> str:
    return " ".join([*(it.name for it in command.words if it.is_option), "--help"])


def bash() -> str:
    """One file for all commands."""
    first = " ".join([*names(), *(name for name, _ in STARTER_WORDS)])
    lines = [
        "# Completion of lintim and of the commands of its companion, for bash.",
        "_lintim_stops() {",
        f"    {STOPS}",
        "}",
        "# Stops whose id or name begins with a word: their ids where one is left, else both.",
        "_lintim_stop() {",
        "    local id name found=()",
        "    while IFS=: read -r id name; do",
        '        [[ "$id" == "$1"* || "${name,,}" == "${1,,}"* ]] && found+=("$id:$name")',
        "    done < <(_lintim_stops)",
        '    [ "${#found[@]}" = 1 ] && found=("${found[0]%%:*}")',
        '    [[ "$1" =~ ^[0-9]+$ ]] && found=("${found[@]%%:*}")',
        '    [ -z "$1" ] && found=("${found[@]%%:*}")',
        '    COMPREPLY=("${found[@]}")',
        "}",
        "_lintim() {",
        '    local word="${COMP_WORDS[COMP_CWORD]}" wanted="" place="$COMP_CWORD"',
        "    COMPREPLY=()",
        '    case "$place:${COMP_WORDS[1]}" in',
        f'        1:*) wanted="{first}" ;;',
        f'        2:demo) wanted="{DEMOS}" ;;',
        f'        2:waits | 2:check-waits) wanted="{PENALTIES}" ;;',
        f'        3:waits) wanted="{BUDGETS}" ;;',
        f'        5:journey) wanted="{WAYS}" ;;',
        '        2:journey | 3:journey | *:pool) _lintim_stop "$word"; return ;;',
        "    esac",
        '    mapfile -t COMPREPLY < <(compgen -W "$wanted" -- "$word")',
        "}",
        "complete -F _lintim lintim",
    ]
    for command in COMMANDS:
        lines += _bash_command(command)
    return "\n".join(lines) + "\n"


def _bash_command(command: Command) -> list[str]:
    function = "_" + command.name.replace("-", "_")
    return [
        f"{function}() {{",
        '    local word="${COMP_WORDS[COMP_CWORD]}"',
        '    if [[ "$word" == -* ]]; then',
        f'        mapfile -t COMPREPLY < <(compgen -W "{_words_of(command)}" -- "$word")',
        "    else",
        '        mapfile -t COMPREPLY < <(compgen -f -- "$word")',
        "    fi",
        "}",
        f"complete -o filenames -F {function} {command.name}",
    ]


def _zsh_text(text: str) -> str:
    return text.replace("'", "'\\''").replace(":", "\\:").replace("[", "\\[").replace("]", "\\]")


def zsh() -> str:
    """One file for all commands, which is named `_lintim`."""
    commands = " ".join(["lintim", *(it.name for it in COMMANDS)])
    says: dict[str, str] = {}
    for word in PROGRAM_WORDS:
        says.setdefault(word.name, word.says)
    rows = [f"        '{name}:{_zsh_text(text)}'" for name, text in says.items()]
    rows += [f"        '{name}:{_zsh_text(text)}'" for name, text in STARTER_WORDS]
    lines = [
        f"#compdef {commands}",
        "# Completion of lintim and of the commands of its companion, for zsh.",
        "_lintim_stops() {",
        "    local -a stops",
        f'    stops=("${{(@f)$({STOPS})}}")',
        "    _describe stop stops",
        "}",
        "_lintim_program() {",
        "    local -a first=(",
        *rows,
        "    )",
        '    case "$((CURRENT - 1)):$words[2]" in',
        "        1:*) _describe word first ;;",
        f"        2:demo) compadd {DEMOS} ;;",
        f"        2:(waits|check-waits)) compadd {PENALTIES} ;;",
        f"        3:waits) compadd {BUDGETS} ;;",
        f"        5:journey) compadd {WAYS} ;;",
        "        (2|3):journey|*:pool) _lintim_stops ;;",
        "    esac",
        "}",
        'case "$service" in',
        "    lintim) _lintim_program ;;",
    ]
    for command in COMMANDS:
        lines += [f"    {command.name})", "        _arguments \\"]
        lines += [f"            '{_zsh_word(word)}' \\" for word in command.words]
        lines += ["            '--help[prints its words]'", "        ;;"]
    return "\n".join([*lines, "esac"]) + "\n"


def _zsh_word(word: Word) -> str:
    takes = ":_files" if word.kind in ("folder", "file") else ":"
    says = _zsh_text(word.says)
    if not word.is_option:
        return f"{'*' if word.many else ''}:{says}{takes}"
    return f"{word.name}[{says}]" + ("" if word.kind == "switch" else f":{word.kind}{takes}")


def _quoted(text: str) -> str:
    return "'" + text.replace("\\", "\\\\").replace("'", "\\'") + "'"


def fish() -> dict[str, str]:
    """A file for each command, by its name."""
    return {"lintim": _fish_program()} | {it.name: _fish_command(it) for it in COMMANDS}


def _fish_program() -> str:
    stops = STOPS.replace("\\1:\\2", "\\1\\t\\2")
    told = "test (count (commandline -opc)) -eq"
    after = "test (commandline -opc)[2] ="
    lines = [
        "# Completion of lintim, for fish.",
        "function __lintim_stops",
        f"    {stops}",
        "end",
        "complete -c lintim -f",
    ]
    for word in PROGRAM_WORDS:
        if f"-a {word.name} " not in "\n".join(lines):
            lines.append(f"complete -c lintim -n '{told} 1' -a {word.name} -d {_quoted(word.says)}")
    for name, says in STARTER_WORDS:
        lines.append(f"complete -c lintim -n '{told} 1' -l {name[2:]} -d {_quoted(says)}")
    for name, place, wanted in (
        ("demo", 2, DEMOS),
        ("waits", 2, PENALTIES),
        ("waits", 3, BUDGETS),
        ("check-waits", 2, PENALTIES),
        ("journey", 2, "(__lintim_stops)"),
        ("journey", 3, "(__lintim_stops)"),
        ("journey", 5, WAYS),
    ):
        lines.append(f"complete -c lintim -n '{told} {place}; and {after} {name}' -a '{wanted}'")
    several = "test (count (commandline -opc)) -ge 2"
    lines.append(f"complete -c lintim -n '{several}; and {after} pool' -a '(__lintim_stops)'")
    return "\n".join(lines) + "\n"


def _fish_command(command: Command) -> str:
    lines = [f"# Completion of {command.name}, for fish."]
    for word in command.words:
        if word.is_option:
            takes = "" if word.kind == "switch" else " -r" if word.kind == "file" else " -x"
            says = _quoted(word.says)
            lines.append(f"complete -c {command.name} -l {word.name[2:]}{takes} -d {says}")
    lines.append(f"complete -c {command.name} -l help -d 'prints its words'")
    return "\n".join(lines) + "\n"
