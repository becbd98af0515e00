// The loads of edges by the demand of rows, as `bench/loads` measures them: reads stops.giv, edges.giv and demand.giv in
// the folder where it stands, sums the customers of each source along its tree of least walks, farthest stop first, and
// writes plain.giv. Prints its microseconds. Ties go to the edge of least id, so edges are sought by id rising.
#include <algorithm>
#include <chrono>
#include <cstdint>
#include <cstdio>
#include <fstream>
#include <iterator>
#include <queue>
#include <string>
#include <unordered_map>
#include <vector>

using std::string;
using std::vector;

// One edge, with its ends as indexes of stops and its length in millionths.
struct Edge {
    int64_t id;
    size_t left, right;
    uint64_t length;
};

static string read_file(const char* name) {
    std::ifstream in(name, std::ios::binary);
    return string(std::istreambuf_iterator<char>(in), std::istreambuf_iterator<char>());
}

// The cells of each row as numbers: in millionths where the column is wanted so, and 0 for words.
static vector<int64_t> read_rows(const string& text, size_t columns, uint32_t millionths) {
    vector<int64_t> cells;
    const char* at = text.data();
    const char* end = at + text.size();
    while (at < end) {
        if (*at == '#' || *at == '\n') {
            while (at < end && *at++ != '\n') {}
            continue;
        }
        for (size_t column = 0; column < columns; column++) {
            while (at < end && *at == ' ') at++;
            int64_t value = 0;
            int places = -1;
            while (at < end && *at != ';' && *at != '\n') {
                if (*at == '.') places = 0;
                else if (*at >= '0' && *at <= '9' && places < 6) {
                    value = value * 10 + (*at - '0');
                    if (places >= 0) places++;
                }
                at++;
            }
            if (millionths >> column & 1)
                for (int place = places < 0 ? 0 : places; place < 6; place++) value *= 10;
            cells.push_back(value);
            if (at < end) at++;
        }
    }
    return cells;
}

static const uint64_t UNSEEN = ~0ull;

int main() {
    string stops_text = read_file("stops.giv"), edges_text = read_file("edges.giv");
    string demand_text = read_file("demand.giv");
    auto begin = std::chrono::steady_clock::now();
    vector<int64_t> ids;
    auto rows = read_rows(stops_text, 5, 0);
    for (size_t i = 0; i < rows.size(); i += 5) ids.push_back(rows[i]);
    std::sort(ids.begin(), ids.end());
    std::unordered_map<int64_t, size_t> index;
    for (size_t i = 0; i < ids.size(); i++) index[ids[i]] = i;
    size_t count = ids.size();
    vector<Edge> edges;
    rows = read_rows(edges_text, 6, 1 << 3);
    for (size_t i = 0; i < rows.size(); i += 6)
        edges.push_back({rows[i], index[rows[i + 1]], index[rows[i + 2]], uint64_t(rows[i + 3])});
    std::sort(edges.begin(), edges.end(), [](const Edge& a, const Edge& b) { return a.id < b.id; });
    vector<vector<size_t>> around(count);
    for (size_t i = 0; i < edges.size(); i++) {
        around[edges[i].left].push_back(i);
        around[edges[i].right].push_back(i);
    }
    vector<vector<uint64_t>> wanted(count);
    rows = read_rows(demand_text, 3, 1 << 2);
    for (size_t i = 0; i < rows.size(); i += 3) {
        size_t from = index.at(rows[i]), to = index.at(rows[i + 1]);
        if (wanted[from].empty()) wanted[from].assign(count, 0);
        wanted[from][to] += rows[i + 2];
    }
    vector<uint64_t> loads(edges.size()), sums(count);
    vector<bool> settled(count);
    vector<size_t> order;
    for (size_t from = 0; from < count; from++) {
        if (wanted[from].empty()) continue;
        auto& customers = wanted[from];
        std::fill(sums.begin(), sums.end(), UNSEEN);
        std::fill(settled.begin(), settled.end(), false);
        order.clear();
        std::priority_queue<std::pair<uint64_t, size_t>, vector<std::pair<uint64_t, size_t>>, std::greater<>> heap;
        sums[from] = 0;
        heap.push({0, from});
        while (!heap.empty()) {
            auto [sum, stop] = heap.top();
            heap.pop();
            if (settled[stop]) continue;
            settled[stop] = true;
            order.push_back(stop);
            for (size_t i : around[stop]) {
                size_t next = edges[i].left == stop ? edges[i].right : edges[i].left;
                if (sum + edges[i].length < sums[next]) {
                    sums[next] = sum + edges[i].length;
                    heap.push({sums[next], next});
                }
            }
        }
        for (size_t k = order.size(); k-- > 1;) {
            size_t stop = order[k];
            for (size_t i : around[stop]) {
                size_t before = edges[i].left == stop ? edges[i].right : edges[i].left;
                if (sums[before] != UNSEEN && sums[before] + edges[i].length == sums[stop]) {
                    loads[i] += customers[stop];
                    customers[before] += customers[stop];
                    break;
                }
            }
        }
    }
    string text = "# edge-id; load; minimal-frequency; maximal-frequency\n";
    for (size_t i = 0; i < edges.size(); i++) {
        uint64_t places = 100000ull * 1000000, least = (loads[i] + places - 1) / places;
        text += std::to_string(edges[i].id) + "; " + std::to_string(loads[i] / 1000000);
        if (uint64_t rest = loads[i] % 1000000) {
            string digits = std::to_string(rest + 1000000).substr(1);
            while (digits.back() == '0') digits.pop_back();
            text += "." + digits;
        }
        text += "; " + std::to_string(least) + "; " + std::to_string(least + 2) + "\n";
    }
    auto end = std::chrono::steady_clock::now();
    std::ofstream("plain.giv", std::ios::binary) << text;
    printf("plain %ld\n", long(std::chrono::duration_cast<std::chrono::microseconds>(end - begin).count()));
}
