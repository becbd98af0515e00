// The same search as make_timetable on the same files, plainly: list_times PERIOD BUDGET. Prints what the stage says and
// in how many steps, and writes the times that are found.
#include <cstdint>
#include <cstdio>
#include <cstdlib>
#include <string>
#include <vector>
typedef uint64_t word;
struct Activity { int from, to, lower, upper; };
struct Old { int event, index; word bits; };
struct Saved { size_t changes; int event, next; };
static int period, words;
static std::vector<Activity> activities;
static std::vector<std::vector<int>> at;
static std::vector<word> sets;
static std::vector<Old> changes;
static std::vector<Saved> saved;
static std::vector<int> waiting;
static std::vector<char> waits;
static word window[12], last;
static word *set_of(int event) { return &sets[(size_t)event * words]; }
static int count(int event) {
    int all = 0;
    for (int i = 0; i < words; i++) all += __builtin_popcountll(set_of(event)[i]);
    return all;
}
static void note(int event) {
    if (!waits[event]) { waits[event] = 1; waiting.push_back(event); }
}
// The 64 times of the period from one on, which goes round.
static word from(const word *times, int start) {
    if (start >= period) start -= period;
    int index = start / 64, past = start % 64, rest = period - start;
    word bits = times[index] >> past;
    if (past && index + 1 < words) bits |= times[index + 1] << (64 - past);
    return rest < 64 ? bits | times[0] << rest : bits;
}
// The times behind which a time of an event is left in a window of the period.
static void reach(int event, int offset, int width) {
    word wide[12], more[12];
    for (int i = 0; i < words; i++) wide[i] = set_of(event)[i];
    for (int wide_to = 1; wide_to <= width;) {
        int step = wide_to < width + 1 - wide_to ? wide_to : width + 1 - wide_to;
        for (int i = 0; i < words; i++) more[i] = wide[i] | from(wide, 64 * i + step);
        more[words - 1] &= last;
        for (int i = 0; i < words; i++) wide[i] = more[i];
        wide_to += step;
    }
    for (int i = 0; i < words; i++) window[i] = from(wide, 64 * i + offset);
}
// Keeps the times of the window; tells whether none is left.
static bool keep(int event) {
    bool changed = false;
    word left = 0;
    for (int i = 0; i < words; i++) {
        word &old = set_of(event)[i], now = old & window[i];
        left |= now;
        if (now == old) continue;
        changes.push_back({event, i, old});
        old = now;
        changed = true;
    }
    if (changed) note(event);
    return !left;
}
static bool reduce() {
    for (size_t next = 0; next < waiting.size(); next++) {
        int event = waiting[next];
        waits[event] = 0;
        int left = count(event), last_offset = -1, last_width = -1;
        for (int index : at[event]) {
            const Activity &a = activities[index];
            int width = a.upper - a.lower < period - 1 ? a.upper - a.lower : period - 1;
            if (period - width <= left) continue;
            for (int side = 0; side < 2; side++) {
                if ((side ? a.from : a.to) != event) continue;
                int offset = side ? period - (a.lower + width) % period : a.lower % period;
                // Activities with equal bounds have one window, unless one of an event with itself made its set smaller.
                if (offset != last_offset || width != last_width) reach(event, offset, width);
                last_offset = a.from == a.to ? -1 : offset;
                last_width = width;
                if (keep(side ? a.to : a.from)) {
                    for (; next < waiting.size(); next++) waits[waiting[next]] = 0;
                    waiting.clear();
                    return true;
                }
            }
        }
    }
    waiting.clear();
    return false;
}
static std::vector<std::vector<std::string>> rows(const char *name) {
    std::vector<std::vector<std::string>> all;
    FILE *f = fopen(name, "r");
    char line[512];
    while (fgets(line, sizeof line, f)) {
        std::vector<std::string> cells(1);
        if (*line == '#') continue;
        for (char *p = line; *p && *p != '\n'; p++)
            if (*p == ';') cells.emplace_back();
            else if (*p != ' ') cells.back() += *p;
        all.push_back(cells);
    }
    fclose(f);
    return all;
}
int main(int, char **args) {
    period = atoi(args[1]);
    words = (period + 63) / 64;
    long budget = atol(args[2]), entries = 0;
    int events = rows("events.giv").size();
    at.resize(events);
    for (auto &row : rows("activities.giv")) {
        Activity a = {atoi(row[2].c_str()) - 1, atoi(row[3].c_str()) - 1, atoi(row[4].c_str()), atoi(row[5].c_str())};
        if (a.upper - a.lower + 1 < period) {
            at[a.from].push_back(activities.size());
            if (a.to != a.from) at[a.to].push_back(activities.size());
        }
        activities.push_back(a);
    }
    last = period % 64 ? ((word)1 << period % 64) - 1 : ~(word)0;
    waits.resize(events);
    sets.resize((size_t)events * words);
    for (int event = 0; event < events; event++) {
        for (int time = 0; time < (event ? period : 1); time++) set_of(event)[time / 64] |= (word)1 << time % 64;
        note(event);
    }
    for (int from = 0;;) {
        if (entries == budget) { puts("spent"); break; }
        entries++;
        if (!reduce()) {
            while (from < events && count(from) <= 1) from++;
            if (from == events) {
                FILE *f = fopen("times.plain", "w");
                fprintf(f, "# event-id; time\n");
                for (int event = 0; event < events; event++)
                    for (int time = 0; time < period; time++)
                        if (set_of(event)[time / 64] >> time % 64 & 1) fprintf(f, "%d; %d\n", event + 1, time);
                fclose(f);
                puts("found");
                break;
            }
            saved.push_back({changes.size(), from, 0});
        }
        bool some = false;
        while (!some && !saved.empty()) {
            Saved &last = saved.back();
            for (; changes.size() > last.changes; changes.pop_back())
                set_of(changes.back().event)[changes.back().index] = changes.back().bits;
            int time = last.next;
            while (time < period && !(set_of(last.event)[time / 64] >> time % 64 & 1)) time++;
            if (time == period) { saved.pop_back(); continue; }
            last.next = time + 1;
            from = last.event;
            for (int i = 0; i < words; i++) window[i] = i == time / 64 ? (word)1 << time % 64 : 0;
            keep(from);
            some = true;
        }
        if (!some) { puts("no solution"); break; }
    }
    printf("%ld steps\n", entries + 1);
}
