# shellcheck shell=bash disable=SC2034,SC2154
# What dist/ holds: programs, and the text PROVED with a part for each, as `key: value` in a line.
# It is read after sources.sh by ./lintim, ./install, ./test and the scripts of dist/.
: "${home:?}"

# The programs of dist/ whose crates stand here: the crate of each, and its name.
dist_programs=("lintim lintim")
[ ! -d "$home/crates/pesp_program" ] || dist_programs+=("pesp_program pesp-judge")

# Prints what PROVED says of a program under a key; several lines where the key stands several
# times.
says() {
    [ -f "$home/dist/PROVED" ] || return
    awk -v name="$1" -v key="$2: " '
        index($0, "program: ") == 1 { here = substr($0, 10) == name }
        here && index($0, key) == 1 { print substr($0, length(key) + 1) }
    ' "$home/dist/PROVED" 2> /dev/null
}

# Prints the version that these sources have.
version_here() {
    sed -n 's/^VERSION = "\(.*\)"$/\1/p' "$home/companion/lintim_companion/version.py"
}

# Prints the sha256 of a file, or nothing.
sum_of() {
    local sum
    sum="$({ sha256sum < "$1"; } 2> /dev/null)" && echo "${sum%% *}"
}

# The processor and the C library of this system, and the version of that library: `x86_64`, `2.36`.
processor_here() { uname -m 2> /dev/null; }
glibc_here() { getconf GNU_LIBC_VERSION 2> /dev/null | sed -n 's/^glibc //p'; }

# Whether a version is at least another one.
is_at_least() {
    [ "$(printf '%s\n' "$2" "$1" | sort -V | head -n 1)" = "$2" ]
}

# Finds why a program of dist/ cannot be run on this system, if so: `fault`.
find_system_fault() {
    local processor glibc
    IFS=', ' read -r processor _ glibc <<< "$(says "$1" needs)"
    fault=""
    if [ "$(processor_here)" != "$processor" ]; then
        fault="it is for the processor $processor, and this is $(processor_here)"
    elif [ -z "$(glibc_here)" ]; then
        fault="it needs glibc $glibc, which is not here"
    elif ! is_at_least "$(glibc_here)" "$glibc"; then
        fault="it needs glibc $glibc, and here is $(glibc_here)"
    fi
}

# Finds why a program of dist/ is not one that was proved of the sources here, if so: `fault`. It is
# named by its crate and its name.
find_dist_fault() {
    fault=""
    if [ ! -e "$home/dist/$2" ] || [ ! -e "$home/dist/PROVED" ]; then
        fault="it is not there"
    elif ! command -v sha256sum > /dev/null; then
        fault="it cannot be compared: sha256sum is missing: apt install coreutils"
    elif [[ ! "$(says "$2" sha256) $(says "$2" sources)" =~ ^[0-9a-f]{64}\ [0-9a-f]{64}$ ]]; then
        fault="dist/PROVED does not say what it is"
    elif [ "$(sum_of "$home/dist/$2")" != "$(says "$2" sha256)" ]; then
        fault="its sha256 is not the one that dist/PROVED has"
    elif ! find_sources "$1"; then
        fault="the sources here cannot be read"
    elif [ "$sources" != "$(says "$2" sources)" ]; then
        fault="it was proved of other sources than stand here"
    elif [ ! -x "$home/dist/$2" ]; then
        fault="it is not marked as a program: chmod +x dist/$2"
    fi
}

# Prints a source that is newer than a file, if there is one.
newer_source() {
    (cd "$home" && find "${folders[@]/#/$PWD/}" "$PWD"/{crates.txt,HANDLES} -type f -newer "$1" \
        ! -name '.*' ! -name '*~' -print -quit)
}

# Prints what was noted of the program of a crate when it was built here, under a key.
noted() {
    sed -n "s/^$2: //p" "$home/crates/$1/out/$1.proved" 2> /dev/null
}

# Notes of which sources the program of a crate was built here, and by which kit.
note_built() {
    local note="$home/crates/$1/out/$1.proved" new
    new="$(mktemp "$note.XXXXXX" 2> /dev/null)" || return 0
    printf 'sha256: %s\nsources: %s\nkit: %s\n' "$(sum_of "${note%.proved}")" "$2" "$3" > "$new"
    chmod 644 "$new"
    mv -f "$new" "$note"
}

# Finds why the program of a crate that stands in its folder is not of the sources here, if so:
# `fault`. Where nothing was noted, as after `rt ci`, times tell it once; then what they say is
# noted.
find_built_fault() {
    local built="$home/crates/$1/out/$1" newer
    fault=""
    if [ ! -x "$built" ]; then
        fault="the program was never built"
    elif ! find_sources "$1" && [ "${#folders[@]}" = 0 ]; then
        fault="the sources here cannot be read"
    elif [ -n "$sources" ] && [ "$(noted "$1" sha256)" = "$(sum_of "$built")" ]; then
        [ "$(noted "$1" sources)" = "$sources" ] && return
        newer="$(newer_source "$built")"
        fault="${newer:+$newer is newer than the program}"
        fault="${fault:-the sources are others than those that it was built of}"
    else
        newer="$(newer_source "$built")"
        fault="${newer:+$newer is newer than the program}"
        [ -z "$newer" ] && [ -n "$sources" ] && note_built "$1" "$sources" ""
    fi
}

# Finds the program of a crate that is of the sources here, the one that was built here or else the
# one of dist/: `program`. Where there is none, `why` tells of the first one, and `besides` of the
# second one.
choose_program() {
    local fault
    program="$home/crates/$1/out/$1"
    find_built_fault "$1"
    why="$fault"
    besides=""
    [ -z "$fault" ] && return
    program="$home/dist/$2"
    find_dist_fault "$1" "$2"
    [ -z "$fault" ] && find_system_fault "$2"
    [ -z "$fault" ] && return
    [ -e "$program" ] && besides="dist/$2 is not used, since $fault"
    program=""
    return 1
}

# The machines on which the bytes of a program of dist/ came out.
machines() { says "$1" proved | sed 's/^[^ ]* on //' | sort -u; }

# Tells whether the program of dist/ has the same bytes as the one that was built here of the same
# sources. Other bytes under the same kit are a fault once the same ones came out on two machines.
compare_bytes() {
    local built="$home/crates/$1/out/$1" kit here
    kit="$(says "$2" kit)"
    here="$(noted "$1" kit)"
    here="${here:-$(rt version 2> /dev/null)}"
    if [ "$here" != "$kit" ]; then
        echo "dist/$2 is of the same sources; its bytes are not compared, since it was built by" \
            "$kit and here is ${here:-no rt}"
    elif cmp -s "$home/dist/$2" "$built"; then
        echo "dist/$2 is the same, byte for byte"
    else
        echo "dist/$2 has other bytes than what $kit built here of the same sources: sha256" \
            "$(says "$2" sha256), and here $(sum_of "$built")"
        [ "$(machines "$2" | wc -l)" -lt 2 ] && return
        echo "dist/$2 had come out the same on $(machines "$2" | wc -l) machines: $(machines "$2" |
            paste -sd '|' | sed 's/|/ | /g')"
        return 1
    fi
}
