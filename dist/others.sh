# shellcheck shell=sh
# What starts lintim sees first that `make` and `fresh` take no file of another program: LinTim's
# files have the names of those that lintim makes. It runs nothing, so it takes no time.

# Notes a made file that is there, and whether its first line is not the one that lintim writes.
see_made() {
    [ -f "$1" ] && [ -r "$1" ] || return 0
    first=""
    IFS= read -r first < "$1" || :
    made="$made${made:+, }$1"
    [ "$first" = "$2" ] || other="${other:-$1}"
}

# Ends with two lines on the standard error where no folder keep is here, and a made file is not one
# of lintim.
see_others() {
    [ "$*" = make ] || [ "$*" = fresh ] || return 0
    [ ! -e keep ] || return 0
    made=""
    other=""
    see_made basis/Pool-Cost.giv '# line-id; length; cost'
    see_made line-planning/Load.giv '# edge-id; load; minimal-frequency; maximal-frequency'
    see_made line-planning/Line-Concept.lin '# line-id; edge-order; edge-id; frequency'
    see_made line-planning/Line-Concept.cert '# kind; id; value; multiplier'
    see_made timetabling/Events-periodic.giv \
        '# event-id; type; stop-id; line-id; direction; repetition'
    see_made timetabling/Activities-periodic.giv \
        '# activity-id; type; from-event; to-event; lower-bound; upper-bound'
    see_made timetabling/Timetable-periodic.tim '# event-id; time'
    see_made delay-management/Events-expanded.giv '# event-id; periodic-id; type; time; stop-id'
    see_made delay-management/Activities-expanded.giv \
        '# activity-id; periodic-id; type; from-event; to-event; lower-bound; upper-bound'
    see_made delay-management/Trips.giv "# start-id; periodic-start-id; start-stop; start-time; \
end-id; periodic-end-id; end-stop; end-time; line"
    see_made vehicle-scheduling/Vehicle_Schedules.vs "# circulation; vehicle; number; type; \
start-id; periodic-start-id; start-stop; start-time; \
end-id; periodic-end-id; end-stop; end-time; line"
    see_made vehicle-scheduling/Vehicle_Schedules.cert '# trip; u; v'
    see_made delay-management/Timetable-disposition.tim '# event-id; time'
    see_made delay-management/Timetable-disposition.cert '# event-id; reason; activity-id'
    see_made statistic/statistic.sta '# key; value'
    [ -n "$other" ] || return 0
    echo "lintim: $1 would overwrite or remove files that lintim did not write, as $other:" \
        "$made" >&2
    echo "lintim: work in a copy, or let lintim-convert in make a dataset of it, or say" \
        "lintim $1 --own once" >&2
    exit 1
}
