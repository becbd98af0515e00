// A plain program that does what `make_pools` does: reads a network, and makes a pool of shortest lines over it, so many
// times. It takes the same words, and puts the pool into plain.giv.
#include <algorithm>
#include <cstdint>
#include <cstdio>
#include <cstdlib>
#include <fstream>
#include <functional>
#include <iterator>
#include <queue>
#include <string>
#include <string_view>
#include <unordered_map>
#include <utility>
#include <vector>

using std::string;
using std::string_view;
using std::vector;

struct Edge {
    int64_t id;
    int left, right;
    int64_t length;
};

struct Network {
    vector<int64_t> stops;
    vector<Edge> edges;
    vector<vector<int>> at;
};

// The first four numbers of a line, in millionths.
static bool numbers(string_view line, int64_t (&cells)[4]) {
    size_t from = 0;
    for (int64_t& cell : cells) {
        size_t end = std::min(line.find(';', from), line.size());
        string field(line.substr(std::min(from, line.size()), end - std::min(from, line.size())));
        cell = static_cast<int64_t>(std::atof(field.c_str()) * 1e6 + 0.5);
        from = end + 1;
    }
    return cells[0] > 0;
}

template <typename Row>
static void rows(const string& text, Row row) {
    for (size_t from = 0; from < text.size();) {
        size_t end = std::min(text.find('\n', from), text.size());
        int64_t cells[4];
        if (text[from] != '#' && numbers(string_view(text).substr(from, end - from), cells)) row(cells);
        from = end + 1;
    }
}

static Network read(const string& stops, const string& edges) {
    Network network;
    rows(stops, [&](int64_t (&cells)[4]) { network.stops.push_back(cells[0] / 1000000); });
    std::sort(network.stops.begin(), network.stops.end());
    std::unordered_map<int64_t, int> index;
    for (size_t i = 0; i < network.stops.size(); i++) index[network.stops[i]] = static_cast<int>(i);
    rows(edges, [&](int64_t (&cells)[4]) {
        network.edges.push_back({cells[0] / 1000000, index[cells[1] / 1000000], index[cells[2] / 1000000], cells[3]});
    });
    std::sort(network.edges.begin(), network.edges.end(), [](const Edge& a, const Edge& b) { return a.id < b.id; });
    network.at.resize(network.stops.size());
    for (size_t i = 0; i < network.edges.size(); i++) {
        network.at[network.edges[i].left].push_back(static_cast<int>(i));
        network.at[network.edges[i].right].push_back(static_cast<int>(i));
    }
    return network;
}

static vector<int64_t> lengths(const Network& network, int from) {
    vector<int64_t> far(network.stops.size(), -1);
    std::priority_queue<std::pair<int64_t, int>, vector<std::pair<int64_t, int>>, std::greater<>> queue;
    queue.push({0, from});
    while (!queue.empty()) {
        auto [length, stop] = queue.top();
        queue.pop();
        if (far[stop] >= 0) continue;
        far[stop] = length;
        for (int index : network.at[stop]) {
            const Edge& edge = network.edges[index];
            int other = edge.left == stop ? edge.right : edge.left;
            if (far[other] < 0) queue.push({length + edge.length, other});
        }
    }
    return far;
}

// The edges of the path to a stop: the last one is that of least id by which a shortest walk comes.
static vector<int> path(const Network& network, const vector<int64_t>& far, int from, int to) {
    vector<int> edges;
    while (to != from) {
        for (int index : network.at[to]) {
            const Edge& edge = network.edges[index];
            int other = edge.left == to ? edge.right : edge.left;
            if (far[other] >= 0 && far[other] + edge.length == far[to]) {
                edges.push_back(index);
                to = other;
                break;
            }
        }
    }
    std::reverse(edges.begin(), edges.end());
    return edges;
}

static string pool(const Network& network, vector<int64_t> terminals) {
    std::sort(terminals.begin(), terminals.end());
    vector<int> stops;
    for (int64_t id : terminals) {
        auto at = std::lower_bound(network.stops.begin(), network.stops.end(), id);
        if (at == network.stops.end() || *at != id) return "refused\n";
        stops.push_back(static_cast<int>(at - network.stops.begin()));
    }
    vector<vector<int>> paths;
    for (size_t i = 0; i < stops.size(); i++) {
        vector<int64_t> far = lengths(network, stops[i]);
        for (size_t j = i + 1; j < stops.size(); j++)
            if (far[stops[j]] >= 0) paths.push_back(path(network, far, stops[i], stops[j]));
    }
    vector<vector<bool>> sets;
    for (const auto& edges : paths) {
        sets.emplace_back(network.edges.size(), false);
        for (int edge : edges) sets.back()[edge] = true;
    }
    string text = "# line-id; order; edge-id\n";
    vector<bool> covered(network.edges.size(), false);
    int line = 0;
    for (size_t i = 0; i < paths.size(); i++) {
        bool contained = false;
        for (size_t j = 0; j < paths.size() && !contained; j++)
            contained = i != j && std::all_of(paths[i].begin(), paths[i].end(), [&](int edge) { return sets[j][edge]; });
        if (contained) continue;
        line++;
        int order = 0;
        for (int edge : paths[i]) {
            covered[edge] = true;
            text += std::to_string(line) + "; " + std::to_string(++order) + "; " + std::to_string(network.edges[edge].id) + "\n";
        }
    }
    for (size_t edge = 0; edge < covered.size(); edge++)
        if (!covered[edge]) text += "# uncovered; " + std::to_string(network.edges[edge].id) + "\n";
    return text;
}

static string contents(const char* name) {
    std::ifstream file(name, std::ios::binary);
    return {std::istreambuf_iterator<char>(file), {}};
}

int main(int count, char** words) {
    string stops = contents("stops.giv"), edges = contents("edges.giv");
    long turns = count > 2 ? std::atol(words[2]) : 0;
    size_t sum = 0;
    vector<int64_t> terminals;
    for (int word = 3; word < count; word++) terminals.push_back(std::atoll(words[word]));
    for (long turn = 0; turn < turns; turn++) {
        Network network = read(stops, edges);
        if (string(words[1]) == "read") {
            sum += network.edges.size();
        } else {
            string text = pool(network, terminals);
            sum += text.size();
            std::ofstream("plain.giv", std::ios::binary) << text;
        }
    }
    std::printf("%zu\n", sum);
}
