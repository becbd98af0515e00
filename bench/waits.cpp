// The same search as choose_waits on the same files, as a good program does it: the rides out of each event, and the
// changes at each event, stand in rows; events that wait stand in their forward order, marks are bits of words of 64,
// and the events that a kept change makes later stand on a trail:
// waits BUDGET
#include <algorithm>
#include <chrono>
#include <cstdio>
#include <cstdlib>
#include <cstring>
#include <string>
#include <vector>
typedef long long ll;
typedef unsigned long long u64;
struct Link { int from, to; ll low; };
struct Moved { int event; ll before; };
struct Taken { int change; bool kept; size_t trail; };
static std::vector<std::vector<std::string>> rows(const char *name) {
    std::vector<std::vector<std::string>> all;
    FILE *f = fopen(name, "r");
    char line[512];
    while (fgets(line, sizeof line, f)) {
        std::vector<std::string> cells;
        for (char *p = strtok(line, ";\n"); p; p = strtok(0, ";\n")) cells.push_back(p[0] == ' ' ? p + 1 : p);
        all.push_back(cells);
    }
    fclose(f);
    return all;
}
// Marks of places in words of 64 bits; words above tell where one stands.
struct Marks {
    std::vector<u64> words, blocks, supers;
    Marks(size_t n) : words(n / 64 + 1), blocks(n / 4096 + 1), supers(n / 262144 + 1) {}
    void set(size_t i) {
        words[i / 64] |= 1ull << i % 64;
        blocks[i / 4096] |= 1ull << i / 64 % 64;
        supers[i / 262144] |= 1ull << i / 4096 % 64;
    }
    void clear(size_t i) {
        if (words[i / 64] &= ~(1ull << i % 64)) return;
        if (blocks[i / 4096] &= ~(1ull << i / 64 % 64)) return;
        supers[i / 262144] &= ~(1ull << i / 4096 % 64);
    }
    void put(size_t i, bool is) { is ? set(i) : clear(i); }
    long first() const {
        for (size_t k = 0; k < supers.size(); k++) {
            if (!supers[k]) continue;
            size_t block = k * 64 + __builtin_ctzll(supers[k]), word = block * 64 + __builtin_ctzll(blocks[block]);
            return word * 64 + __builtin_ctzll(words[word]);
        }
        return -1;
    }
};
// The items of each event, one row after the other.
template <class T> struct Rows {
    std::vector<size_t> firsts;
    std::vector<T> items;
    Rows(size_t events, const std::vector<std::pair<int, T>> &all) : firsts(events + 1), items(all.size()) {
        for (auto &a : all) firsts[a.first + 1]++;
        for (size_t i = 0; i < events; i++) firsts[i + 1] += firsts[i];
        auto at = firsts;
        for (auto &a : all) items[at[a.first]++] = a.second;
    }
};
int main(int argc, char **argv) {
    int budget = atoi(argv[1]);
    std::vector<ll> plan;
    std::vector<char> arrival;
    for (auto &r : rows("events.giv")) { plan.push_back(atoll(r[3].c_str())); arrival.push_back(r[2] == "arrival"); }
    size_t events = plan.size();
    std::vector<Link> rides, changes;
    for (auto &r : rows("activities.giv")) {
        Link l{atoi(r[3].c_str()) - 1, atoi(r[4].c_str()) - 1, atoll(r[5].c_str())};
        (r[2] == "change" ? changes : rides).push_back(l);
    }
    std::vector<ll> times = plan;
    for (auto &r : rows("delays.giv")) times[atoi(r[0].c_str()) - 1] += atoll(r[1].c_str());
    auto start = std::chrono::steady_clock::now();
    std::vector<int> order(events), place(events);
    for (size_t i = 0; i < events; i++) order[i] = i;
    std::sort(order.begin(), order.end(), [&](int a, int b) {
        return plan[a] != plan[b] ? plan[a] < plan[b] : arrival[a] != arrival[b] ? arrival[a] > arrival[b] : a < b;
    });
    for (size_t k = 0; k < events; k++) place[order[k]] = k;
    std::vector<std::pair<int, Link>> by_tail;
    for (auto &l : rides) by_tail.push_back({l.from, l});
    std::vector<std::pair<int, int>> by_end;
    for (size_t c = 0; c < changes.size(); c++) { by_end.push_back({changes[c].from, c}); by_end.push_back({changes[c].to, c}); }
    Rows<Link> out(events, by_tail);
    Rows<int> at(events, by_end);
    for (int e : order)
        for (size_t k = out.firsts[e]; k < out.firsts[e + 1]; k++) {
            auto &l = out.items[k];
            times[l.to] = std::max(times[l.to], times[e] + l.low);
        }
    ll delay = 0;
    for (size_t i = 0; i < events; i++) if (arrival[i]) delay += times[i] - plan[i];
    std::vector<char> kept(changes.size()), open(changes.size(), 1);
    Marks broken(changes.size()), waiting(events);
    auto test = [&](int c) { broken.put(c, open[c] && times[changes[c].from] + changes[c].low > times[changes[c].to]); };
    for (size_t c = 0; c < changes.size(); c++) test(c);
    std::vector<Moved> trail;
    std::vector<Taken> taken;
    auto set_time = [&](int event, ll time) {
        if (arrival[event]) delay += time - times[event];
        times[event] = time;
        for (size_t k = at.firsts[event]; k < at.firsts[event + 1]; k++) test(at.items[k]);
    };
    auto push = [&](int event, ll time) {
        if (times[event] >= time) return;
        trail.push_back({event, times[event]});
        set_time(event, time);
        waiting.set(place[event]);
    };
    auto settle = [&] {
        for (long k = waiting.first(); k >= 0; k = waiting.first()) {
            waiting.clear(k);
            int e = order[k];
            for (size_t j = out.firsts[e]; j < out.firsts[e + 1]; j++) push(out.items[j].to, times[e] + out.items[j].low);
            for (size_t j = at.firsts[e]; j < at.firsts[e + 1]; j++) {
                auto &l = changes[at.items[j]];
                if (l.from == e && kept[at.items[j]]) push(l.to, times[e] + l.low);
            }
        }
    };
    ll best = -1, dropped = 0;
    int entries = 0;
    bool whole = false;
    while (entries < budget) {
        entries++;
        ll bound = delay + 5 * dropped;
        int split = -1;
        if (best < 0 || bound < best) {
            split = broken.first();
            if (split < 0) best = bound;
        }
        if (split >= 0) {
            taken.push_back({split, true, trail.size()});
            kept[split] = 1;
            open[split] = 0;
            test(split);
            push(changes[split].to, times[changes[split].from] + changes[split].low);
            settle();
            continue;
        }
        while (!taken.empty() && !taken.back().kept) { open[taken.back().change] = 1; test(taken.back().change); taken.pop_back(); dropped--; }
        if (taken.empty()) { whole = true; break; }
        kept[taken.back().change] = 0;
        for (; trail.size() > taken.back().trail; trail.pop_back()) set_time(trail.back().event, trail.back().before);
        taken.back().kept = false;
        dropped++;
    }
    auto time = std::chrono::duration_cast<std::chrono::microseconds>(std::chrono::steady_clock::now() - start).count();
    printf("%d entries, best %lld, %s, depth %zu, %lld microseconds\n", entries, best, whole ? "whole" : "not whole", taken.size(), (ll)time);
}
