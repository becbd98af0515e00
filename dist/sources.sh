# shellcheck shell=bash
# What a program is made of: the crates that it stands on, and one sum over their sources. It is
# read by ./lintim, ./install, ./test and the scripts of dist/, which set `home`, the top of a
# checkout.
: "${home:?}"

# Reads crates.txt into `needs_of`: the crates and libraries that each crate uses.
read_crates() {
    local line name
    declare -gA needs_of=()
    while IFS= read -r line; do
        line="${line%%#*}"
        [[ "$line" == *:* ]] || continue
        read -r name _ <<< "${line%%:*}"
        read -ra line <<< "${line#*:}"
        needs_of[$name]="${line[*]}"
    done < "$home/crates.txt"
}

# Adds a crate to `crates` after those that it stands on, each once. Other names are of the kit.
add_crate() {
    local need
    [ -n "${needs_of[$1]+here}" ] && [ -z "${seen[$1]}" ] || return 0
    seen[$1]=1
    for need in ${needs_of[$1]}; do add_crate "$need"; done
    crates+=("$1")
}

# Finds the crates that a crate stands on, and that crate, from the bottom: `crates`.
find_crates() {
    local -A seen=()
    crates=()
    read_crates 2> /dev/null && add_crate "$1"
    [ "${#crates[@]}" -gt 0 ]
}

# Finds the folders of their sources: `folders`, by their paths from the top.
find_folders() {
    local name part
    folders=()
    for name in "${crates[@]}"; do
        for part in src specs proofs; do
            [ -d "$home/crates/$name/$part" ] && folders+=("crates/$name/$part")
        done
    done
    [ "${#folders[@]}" -gt 0 ]
}

# Prints a line for each source, sorted by bytes, and one for each crate of crates.txt: nothing of
# times, owners or rights, and nothing of what an editor leaves beside a file.
list_sources() {
    local name
    cd "$home" || return 1
    {
        printf 'HANDLES\0'
        find "${folders[@]}" ! -type d ! -name '.*' ! -name '*~' -print0
    } | LC_ALL=C sort -z | xargs -0 sha256sum -- || return 1
    for name in "${crates[@]}"; do echo "$name: ${needs_of[$name]}"; done
}

# Prints the sum over the sources of `crates`, or nothing where they cannot be read.
fresh_sum() {
    local sum
    sum="$(set -o pipefail && { list_sources | sha256sum; } 2> /dev/null)" && echo "${sum%% *}"
}

# Prints that sum for the program of a crate, anew.
sum_of_crate() { find_crates "$1" && find_folders && fresh_sum; }

# Finds the sum over the sources of the program of a crate: `sources`. One that was computed before
# is taken again where nothing has changed since, as the system's own times say, which nobody sets.
find_sources() {
    local note="$home/crates/$1/out/sources" new
    sources=""
    find_crates "$1" && find_folders || return 1
    if [ -f "$note" ] && ! changed_since "$note"; then read -r sources < "$note"; fi
    [[ "$sources" =~ ^[0-9a-f]{64}$ ]] && return
    # The note is as old as the moment before the look, and two at once write one each.
    [ ! -O "$home/crates/$1" ] || mkdir -p "${note%/*}" 2> /dev/null
    new="$(mktemp "$note.XXXXXX" 2> /dev/null)"
    sources="$(fresh_sum)"
    [ -n "$new" ] || { [ -n "$sources" ] && return; }
    keep_note "$new" "$note" "$sources"
    [ -n "$sources" ]
}

# Whether a source, or a folder of sources or of a crate, has changed since a file was written, or
# cannot be looked at.
changed_since() {
    local found
    found="$(cd "$home" && {
        find crates.txt HANDLES "${folders[@]}" -cnewer "$1" -print -quit
        find "${crates[@]/#/crates/}" -maxdepth 0 -cnewer "$1" -print -quit
    } 2>&1)"
    [ -n "$found" ]
}

# Leaves a text in the place of a note, with the time at which its new file was made, less a second.
keep_note() {
    local new="$1" note="$2" made
    [ -n "$3" ] && made="$(mktemp "$note.XXXXXX")" && echo "$3" > "$made" &&
        touch -r "$new" -d '-1 second' "$made" && chmod 644 "$made" && mv -f "$made" "$note"
    rm -f "$new" "$made"
}
