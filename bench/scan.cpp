// A plain connection scan over the day of bench/journeys: parse, sort by the forward order, scan, go back. It prints the
// least microseconds of some turns for the scan alone, to a stop and to one that is not there.
#include <algorithm>
#include <chrono>
#include <cstdint>
#include <cstdio>
#include <fstream>
#include <iterator>
#include <string>
#include <vector>

struct Event { bool arrival; uint32_t stop; uint64_t time; };
struct Connection { uint32_t from, to, id; };

static std::string text_of(const char* name) {
    std::ifstream file(name, std::ios::binary);
    return std::string(std::istreambuf_iterator<char>(file), {});
}

// The fields of each row; a word is told by its first letter.
template <typename Row> static void rows_of(const std::string& text, size_t columns, Row row) {
    std::vector<uint64_t> fields(columns);
    const char* at = text.data();
    const char* end = at + text.size();
    while (at < end) {
        if (*at == '#') { while (at < end && *at++ != '\n') {} continue; }
        for (size_t i = 0; i < columns; i++) {
            while (*at == ' ') at++;
            if (*at >= 'a') { fields[i] = *at; while (*at != ';' && *at != '\n') at++; }
            else { uint64_t n = 0; while (*at >= '0' && *at <= '9') n = n * 10 + (*at++ - '0'); fields[i] = n; }
            at++;
        }
        row(fields);
    }
}

static std::vector<Event> events;
static std::vector<Connection> connections;

static size_t scan(uint32_t from, uint32_t to, uint64_t start, std::vector<uint32_t>& journey, std::vector<uint32_t>& set) {
    const uint32_t unreached = UINT32_MAX, is_start = UINT32_MAX - 1;
    std::vector<uint32_t> by(events.size(), unreached), tail(events.size());
    for (size_t e = 0; e < events.size(); e++)
        if (!events[e].arrival && events[e].stop == from && events[e].time >= start) by[e] = is_start;
    for (const Connection& c : connections)
        if (by[c.from] != unreached && by[c.to] != is_start && c.id < by[c.to]) { by[c.to] = c.id; tail[c.to] = c.from; }
    size_t end = SIZE_MAX;
    for (size_t e = 0; e < events.size(); e++)
        if (by[e] != unreached && events[e].arrival && events[e].stop == to && (end == SIZE_MAX || events[e].time < events[end].time)) end = e;
    journey.clear();
    set.clear();
    if (end != SIZE_MAX) {
        uint32_t e = end;
        journey.push_back(e);
        while (by[e] != is_start) { e = tail[e]; journey.push_back(e); }
        std::reverse(journey.begin(), journey.end());
    }
    for (size_t e = 0; e < events.size(); e++)
        if (by[e] != unreached && (end == SIZE_MAX || events[e].time < events[end].time)) set.push_back(e);
    return set.size();
}

int main() {
    rows_of(text_of("events.giv"), 5, [](const std::vector<uint64_t>& row) {
        events.push_back({row[2] == 'a', (uint32_t)row[4], row[3]});
    });
    rows_of(text_of("activities.giv"), 7, [](const std::vector<uint64_t>& row) {
        uint32_t from = row[3] - 1, to = row[4] - 1;
        if (events[from].time + row[5] <= events[to].time) connections.push_back({from, to, (uint32_t)row[0]});
    });
    std::sort(connections.begin(), connections.end(), [](const Connection& a, const Connection& b) {
        const Event &x = events[a.from], &y = events[b.from];
        if (x.time != y.time) return x.time < y.time;
        if (x.arrival != y.arrival) return x.arrival;
        return a.from < b.from;
    });
    std::vector<uint32_t> journey, set;
    for (uint32_t to : {1000u, 9999u}) {
        int64_t least = INT64_MAX;
        size_t count = 0;
        for (int turn = 0; turn < 41; turn++) {
            auto start = std::chrono::steady_clock::now();
            count = scan(1, to, 0, journey, set);
            auto time = std::chrono::steady_clock::now() - start;
            least = std::min<int64_t>(least, std::chrono::duration_cast<std::chrono::microseconds>(time).count());
        }
        std::printf("%zu %zu %lld\n", journey.size(), count, (long long)least);
    }
}
