// The same disposition and the same statistic as make_disposition and make_statistic on the same files, plainly:
// day_files disposition, or day_files statistic. Prints what the stage says, and writes what it makes.
#include <algorithm>
#include <charconv>
#include <cstdio>
#include <cstdlib>
#include <cstring>
#include <numeric>
#include <string>
#include <string_view>
#include <vector>
struct Event { int time, kind; };
struct Activity { int id, kind, from, to, lower, extra; };
struct Row { int vehicle, empty, from, to, start, end; };
static const int period = 60, turnover = 5, wait = 3, vehicle_costs = 100, empty_costs = 1;
static std::string text_of(const char *name) {
    std::string text;
    FILE *f = fopen(name, "rb");
    char buffer[1 << 16];
    for (size_t n; (n = fread(buffer, 1, sizeof buffer, f)) > 0;) text.append(buffer, n);
    fclose(f);
    return text;
}
// The cells of the next row.
static bool next_row(std::string_view &rest, std::vector<std::string_view> &cells) {
    cells.clear();
    while (!rest.empty() && rest[0] == '#') rest.remove_prefix(rest.find('\n') + 1);
    if (rest.empty()) return false;
    std::string_view line = rest.substr(0, rest.find('\n'));
    rest.remove_prefix(std::min(rest.size(), line.size() + 1));
    for (size_t from = 0; from <= line.size();) {
        size_t to = std::min(line.find(';', from), line.size());
        std::string_view cell = line.substr(from, to - from);
        while (!cell.empty() && cell[0] == ' ') cell.remove_prefix(1);
        cells.push_back(cell);
        from = to + 1;
    }
    return true;
}
static long number(std::string_view cell) {
    long value = -1;
    std::from_chars(cell.data(), cell.data() + cell.size(), value);
    return value;
}
static int kind_of(std::string_view kind) {
    return kind == "drive" ? 0 : kind == "wait" ? 1 : kind == "change" ? 2 : 3;
}
static void add(std::string &out, long value, const char *behind) {
    char digits[24];
    out.append(digits, std::to_chars(digits, digits + 24, value).ptr - digits);
    out += behind;
}
static void put(const char *name, const std::string &text) {
    FILE *f = fopen(name, "wb");
    fwrite(text.data(), 1, text.size(), f);
    fclose(f);
}
static std::vector<std::string_view> cells;
static std::vector<Event> day_events() {
    std::vector<Event> events;
    std::string text = text_of("events.giv");
    for (std::string_view rest = text; next_row(rest, cells);)
        events.push_back({(int)number(cells[3]), cells[2] == "arrival"});
    return events;
}
static std::vector<Activity> day_activities() {
    std::vector<Activity> activities;
    std::string text = text_of("activities.giv");
    for (std::string_view rest = text; next_row(rest, cells);)
        activities.push_back({(int)number(cells[0]), kind_of(cells[2]), (int)number(cells[3]) - 1, (int)number(cells[4]) - 1,
            (int)number(cells[5]), 0});
    return activities;
}
static std::vector<Row> schedule() {
    std::vector<Row> rows;
    std::string text = text_of("schedule.vs");
    for (std::string_view rest = text; next_row(rest, cells);)
        rows.push_back({(int)number(cells[1]), cells[3] == "EMPTY", (int)number(cells[4]) - 1, (int)number(cells[8]) - 1,
            (int)number(cells[7]), (int)number(cells[11])});
    return rows;
}
// The least times along links that stand in the forward order of their first events.
static std::vector<long> pushed(const std::vector<long> &earliest, const std::vector<Activity> &links, const std::vector<char> &kept) {
    std::vector<long> times = earliest;
    for (const Activity &a : links)
        if (a.kind != 2 || kept[a.id]) times[a.to] = std::max(times[a.to], times[a.from] + a.lower + a.extra);
    return times;
}
static void disposition() {
    std::vector<Event> events = day_events();
    std::vector<Activity> activities = day_activities();
    std::vector<Row> rows = schedule();
    std::vector<long> earliest(events.size());
    for (size_t i = 0; i < events.size(); i++) earliest[i] = events[i].time;
    std::string text = text_of("event-delays.giv");
    for (std::string_view rest = text; next_row(rest, cells);) earliest[number(cells[0]) - 1] += number(cells[1]);
    text = text_of("activity-delays.giv");
    for (std::string_view rest = text; next_row(rest, cells);) activities[number(cells[0]) - 1].extra = number(cells[1]);
    std::vector<Activity> all = activities;
    for (Row &row : rows)
        if (row.empty) all.push_back({0, 3, row.from, row.to, row.end - row.start, turnover});
    // The links by the forward order of their first events: by planned time, arrivals first, then by number.
    std::vector<int> order(events.size()), first(events.size() + 1), place(events.size());
    std::iota(order.begin(), order.end(), 0);
    std::sort(order.begin(), order.end(), [&](int a, int b) {
        if (events[a].time != events[b].time) return events[a].time < events[b].time;
        if (events[a].kind != events[b].kind) return events[a].kind > events[b].kind;
        return a < b;
    });
    for (size_t i = 0; i < order.size(); i++) place[order[i]] = i;
    for (Activity &a : all) first[place[a.from] + 1]++;
    for (size_t i = 0; i < events.size(); i++) first[i + 1] += first[i];
    std::vector<Activity> links(all.size());
    for (Activity &a : all) links[first[place[a.from]]++] = a;
    std::vector<char> kept(activities.size() + 1);
    std::vector<long> times = pushed(earliest, links, kept);
    for (Activity &a : activities)
        kept[a.id] = a.kind == 2 && times[a.from] + a.lower <= events[a.to].time + wait;
    times = pushed(earliest, links, kept);
    long delay = 0, missed = 0;
    for (size_t i = 0; i < events.size(); i++)
        if (events[i].kind) delay += times[i] - events[i].time;
    std::vector<int> tight(events.size());
    for (Activity &a : activities) {
        if (a.kind == 2 && times[a.to] < times[a.from] + a.lower) missed++;
        if (a.kind == 2 && !kept[a.id]) continue;
        if (times[a.to] == times[a.from] + a.lower + a.extra && !tight[a.to]) tight[a.to] = a.id;
    }
    std::string out = "# event-id; time\n";
    for (size_t i = 0; i < events.size(); i++) {
        add(out, i + 1, "; ");
        add(out, times[i], "\n");
    }
    put("times.plain", out);
    out = "# event-id; reason; activity-id\n";
    for (size_t i = 0; i < events.size(); i++) {
        bool source = times[i] == earliest[i];
        add(out, i + 1, source ? "; source; " : tight[i] ? "; activity; " : "; turn; ");
        add(out, source ? 0 : tight[i], "\n");
    }
    put("reasons.plain", out);
    printf("disposition: delay %ld, %ld missed, optimal\n", delay, missed);
}
static void statistic() {
    // Costs of lines with their millionths, and how often each line runs.
    auto millionths = [](std::string_view cell) {
        size_t point = cell.find('.');
        long value = number(cell.substr(0, point)) * 1000000, weight = 100000;
        if (point != std::string_view::npos)
            for (char digit : cell.substr(point + 1)) value += (digit - '0') * weight, weight /= 10;
        return value;
    };
    std::vector<long> costs(1001);
    std::string text = text_of("costs.giv");
    for (std::string_view rest = text; next_row(rest, cells);) costs[number(cells[0])] = millionths(cells[2]);
    std::vector<char> seen(1001);
    long cost = 0, running = 0;
    text = text_of("concept.lin");
    for (std::string_view rest = text; next_row(rest, cells);) {
        long line = number(cells[0]), frequency = number(cells[3]);
        if (seen[line]) continue;
        seen[line] = 1;
        cost += costs[line] * frequency;
        running += frequency > 0;
    }
    text = text_of("periodic-events.giv");
    std::vector<int> kinds;
    for (std::string_view rest = text; next_row(rest, cells);) kinds.push_back(cells[1] == "arrival");
    text = text_of("periodic-activities.giv");
    std::vector<Activity> periodic;
    for (std::string_view rest = text; next_row(rest, cells);)
        periodic.push_back({(int)number(cells[0]), kind_of(cells[1]), (int)number(cells[2]) - 1, (int)number(cells[3]) - 1,
            (int)number(cells[4]), 0});
    text = text_of("periodic-times.tim");
    std::vector<int> at(kinds.size());
    for (std::string_view rest = text; next_row(rest, cells);) at[number(cells[0]) - 1] = number(cells[1]);
    long minutes[4] = {};
    for (Activity &a : periodic) {
        int slack = (at[a.to] - at[a.from] - a.lower) % period;
        minutes[a.kind] += a.lower + (slack < 0 ? slack + period : slack);
    }
    text = text_of("trips.giv");
    long trips = 0;
    for (std::string_view rest = text; next_row(rest, cells);) trips += number(cells[0]) > 0;
    std::vector<Event> events = day_events();
    std::vector<Activity> activities = day_activities();
    std::vector<Row> rows = schedule();
    std::vector<long> times(events.size());
    text = text_of("disposed.tim");
    for (std::string_view rest = text; next_row(rest, cells);) times[number(cells[0]) - 1] = number(cells[1]);
    std::vector<char> driven(1 << 20);
    long vehicles = 0, empty = 0, delay = 0, greatest = 0, missed = 0;
    for (Row &row : rows) {
        vehicles += !driven[row.vehicle];
        driven[row.vehicle] = 1;
        if (row.empty) empty += row.end - row.start;
    }
    for (size_t i = 0; i < events.size(); i++) {
        if (events[i].kind) delay += times[i] - events[i].time;
        greatest = std::max(greatest, times[i] - events[i].time);
    }
    for (Activity &a : activities) missed += a.kind == 2 && times[a.to] < times[a.from] + a.lower;
    std::string out = "# key; value\n";
    auto line = [&](const char *key, long value) { out += key, out += "; ", add(out, value, "\n"); };
    out += "lc_cost; ";
    add(out, cost / 1000000, "");
    if (cost % 1000000) {
        char digits[8];
        snprintf(digits, sizeof digits, "%06ld", cost % 1000000);
        for (size_t n = 6; n-- > 0 && digits[n] == '0';) digits[n] = 0;
        out += '.', out += digits;
    }
    out += "\n";
    line("lc_lines", running);
    line("ean_events", kinds.size());
    line("ean_activities", periodic.size());
    line("tim_drive_time", minutes[0]);
    line("tim_wait_time", minutes[1]);
    line("tim_change_time", minutes[2]);
    line("ro_trips", trips);
    line("vs_vehicles", vehicles);
    line("vs_empty_minutes", empty);
    line("vs_cost", vehicle_costs * vehicles + empty_costs * empty);
    line("dm_total_delay", delay);
    line("dm_max_delay", greatest);
    line("dm_missed_changes", missed);
    put("statistic.plain", out);
    puts("statistic: 14 values");
}
int main(int, char **args) {
    strcmp(args[1], "disposition") == 0 ? disposition() : statistic();
}
