// The same roll-out as make_rollout on the same files, plainly: roll_days LATEST. Prints what the stage says, and writes
// the events, activities and trips of the day.
#include <charconv>
#include <cstdio>
#include <cstdlib>
#include <string>
#include <string_view>
#include <vector>
struct Event { int stop, line, back, repetition, kind, time; };
struct Activity { int id, kind, from, to, lower, upper; };
struct Run { int first, size, start, trips, first_id; };
static const int period = 60;
static std::string text_of(const char *name) {
    std::string text;
    FILE *f = fopen(name, "rb");
    char buffer[1 << 16];
    for (size_t n; (n = fread(buffer, 1, sizeof buffer, f)) > 0;) text.append(buffer, n);
    fclose(f);
    return text;
}
// The cells of the next row.
static bool next_row(std::string_view &rest, std::vector<std::string_view> &cells) {
    cells.clear();
    while (!rest.empty() && rest[0] == '#') rest.remove_prefix(rest.find('\n') + 1);
    if (rest.empty()) return false;
    std::string_view line = rest.substr(0, rest.find('\n'));
    rest.remove_prefix(std::min(rest.size(), line.size() + 1));
    for (size_t from = 0; from <= line.size();) {
        size_t to = std::min(line.find(';', from), line.size());
        std::string_view cell = line.substr(from, to - from);
        while (!cell.empty() && cell[0] == ' ') cell.remove_prefix(1);
        cells.push_back(cell);
        from = to + 1;
    }
    return true;
}
static int number(std::string_view cell) {
    int value = -1;
    std::from_chars(cell.data(), cell.data() + cell.size(), value);
    return value;
}
static void add(std::string &out, int value, const char *behind) {
    char digits[16];
    out.append(digits, std::to_chars(digits, digits + 16, value).ptr - digits);
    out += behind;
}
static void put(const char *name, const std::string &text) {
    FILE *f = fopen(name, "wb");
    fwrite(text.data(), 1, text.size(), f);
    fclose(f);
}
int main(int, char **args) {
    int latest = atoi(args[1]);
    std::vector<std::string_view> cells;
    std::vector<Event> events;
    std::string text = text_of("events.giv");
    for (std::string_view rest = text; next_row(rest, cells);)
        events.push_back({number(cells[2]), number(cells[3]), cells[4] == "<", number(cells[5]), cells[1] == "arrival", 0});
    std::string activity_text = text_of("activities.giv");
    std::vector<Activity> activities;
    for (std::string_view rest = activity_text; next_row(rest, cells);) {
        std::string_view kind = cells[1];
        int place = kind == "drive" ? 0 : kind == "wait" ? 1 : kind == "change" ? 2 : 3;
        activities.push_back({number(cells[0]), place, number(cells[2]), number(cells[3]), number(cells[4]), number(cells[5])});
    }
    std::string time_text = text_of("times.giv");
    size_t count = 0;
    for (std::string_view rest = time_text; next_row(rest, cells);) events[count++].time = number(cells[1]);
    // The drives and waits by the event that they leave.
    std::vector<int> ways(events.size(), -1), way_counts(events.size());
    for (size_t i = 0; i < activities.size(); i++) {
        Activity &a = activities[i];
        if (a.from < 1 || a.to < 1 || a.from > (int)events.size() || a.to > (int)events.size()) { puts("refused"); return 0; }
        if (a.kind > 1 || a.to != a.from + 1) continue;
        if (ways[a.from - 1] < 0) ways[a.from - 1] = i;
        way_counts[a.from - 1]++;
    }
    std::vector<Run> runs;
    std::vector<int> minutes(events.size()), run_of(events.size());
    auto duration = [&](const Activity &a) {
        int slack = (events[a.to - 1].time - events[a.from - 1].time - a.lower) % period;
        return a.lower + (slack < 0 ? slack + period : slack);
    };
    int next_id = 1;
    for (size_t first = 0, end; first < events.size(); first = end) {
        Event &a = events[first];
        for (end = first + 1; end < events.size(); end++) {
            Event &b = events[end];
            if (b.line != a.line || b.back != a.back || b.repetition != a.repetition) break;
        }
        bool sound = (end - first) % 2 == 0;
        for (size_t i = first, at = 0; i < end; i++) {
            sound = sound && events[i].kind == (int)((i - first) % 2) && (i + 1 == end || way_counts[i] == 1);
            if (!sound) { puts("refused"); return 0; }
            minutes[i] = at;
            run_of[i] = runs.size();
            if (i + 1 < end) at += duration(activities[ways[i]]);
        }
        int start = a.time, trips = start > latest ? 0 : (latest - start) / period + 1;
        runs.push_back({(int)first, (int)(end - first), start, trips, next_id});
        next_id += trips * (int)(end - first);
    }
    std::string out = "# event-id; periodic-id; type; time; stop-id\n";
    for (Run &run : runs)
        for (int trip = 0; trip < run.trips; trip++)
            for (int k = 0; k < run.size; k++) {
                Event &event = events[run.first + k];
                add(out, run.first_id + trip * run.size + k, "; ");
                add(out, run.first + k + 1, event.kind ? "; arrival; " : "; departure; ");
                add(out, run.start + trip * period + minutes[run.first + k], "; ");
                add(out, event.stop, "\n");
            }
    put("events.plain", out);
    out = "# activity-id; periodic-id; type; from-event; to-event; lower-bound; upper-bound\n";
    int id = 0;
    auto add_activity = [&](const Activity &a, int from, int to) {
        add(out, ++id, "; ");
        add(out, a.id, a.kind == 0 ? "; drive; " : a.kind == 1 ? "; wait; " : "; change; ");
        add(out, from, "; ");
        add(out, to, "; ");
        add(out, a.lower, "; ");
        add(out, a.upper, "\n");
    };
    for (Run &run : runs)
        for (int trip = 0; trip < run.trips; trip++)
            for (int k = 0; k + 1 < run.size; k++) {
                int from = run.first_id + trip * run.size + k;
                add_activity(activities[ways[run.first + k]], from, from + 1);
            }
    for (Activity &a : activities) {
        if (a.kind != 2) continue;
        Run &tail = runs[run_of[a.from - 1]], &head = runs[run_of[a.to - 1]];
        int takes = duration(a), from_start = tail.start + minutes[a.from - 1], to_start = head.start + minutes[a.to - 1];
        for (int trip = 0; trip < tail.trips; trip++) {
            int after = from_start + trip * period + takes - to_start;
            if (after < 0 || after / period >= head.trips) continue;
            add_activity(a, tail.first_id + trip * tail.size + a.from - 1 - tail.first,
                head.first_id + after / period * head.size + a.to - 1 - head.first);
        }
    }
    put("activities.plain", out);
    out = "# start-id; periodic-start-id; start-stop; start-time; end-id; periodic-end-id; end-stop; end-time; line\n";
    for (Run &run : runs)
        for (int trip = 0; trip < run.trips; trip++)
            for (int end = 0; end < 2; end++) {
                int k = end ? run.size - 1 : 0;
                Event &event = events[run.first + k];
                add(out, run.first_id + trip * run.size + k, "; ");
                add(out, run.first + k + 1, "; ");
                add(out, event.stop, "; ");
                add(out, run.start + trip * period + minutes[run.first + k], "; ");
                if (end) add(out, event.line, "\n");
            }
    put("trips.plain", out);
    puts("rolled out");
}
