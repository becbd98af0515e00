// The same search as make_concept on the same files, as a good plain program does it: list_concepts BUDGET. It keeps the
// sums of each edge, how many edges are missed, and the edges that fall short as bits in words of 64, over which alone the
// bound goes. Prints what the stage says, and writes the concept, and the tree where the search is whole.
#include <cstdio>
#include <cstdlib>
#include <cstring>
#include <algorithm>
#include <map>
#include <string>
#include <vector>
typedef long long ll;
typedef __int128 wide;
struct Edge { ll id; int least, most; std::vector<int> lines; };
struct Line { ll id, cost; std::vector<int> edges; };
struct Multiplier { int edge; ll amount; };
struct Node { int kind, index, at; std::vector<Multiplier> multipliers; };
struct Split { int line, lo, at, hi; bool in_lower; };
static std::vector<std::vector<std::string>> rows(const char *name) {
    std::vector<std::vector<std::string>> all;
    FILE *f = fopen(name, "r");
    char line[512];
    while (fgets(line, sizeof line, f)) {
        std::vector<std::string> cells;
        if (*line != '#') for (char *p = strtok(line, ";\n"); p; p = strtok(0, ";\n")) cells.push_back(p[0] == ' ' ? p + 1 : p);
        if (!cells.empty()) all.push_back(cells);
    }
    fclose(f);
    return all;
}
static ll millionths(const std::string &text) {
    size_t point = text.find('.');
    std::string part = point == std::string::npos ? "" : text.substr(point + 1);
    part.resize(6, '0');
    return atoll(text.substr(0, point).c_str()) * 1000000 + atoll(part.c_str());
}
static std::vector<Edge> edges;
static std::vector<Line> lines;
static std::vector<int> order, low, high;
static std::vector<ll> least, greatest, left_over, costs;
static std::vector<unsigned long long> is_short;
static int over = 0, under = 0;
static std::vector<Multiplier> multipliers;
static wide low_cost = 0, best_cost = -1;
static std::vector<int> best;
static void set_range(int line, int lo, int hi) {
    int more_least = lo - low[line], more_greatest = hi - high[line];
    if (more_least != 0) for (int e : lines[line].edges) {
        over -= edges[e].most < least[e];
        least[e] += more_least;
        over += edges[e].most < least[e];
        unsigned long long bit = 1ULL << e % 64, &word = is_short[e / 64];
        word = least[e] < edges[e].least ? word | bit : word & ~bit;
    }
    if (more_greatest != 0) for (int e : lines[line].edges) {
        under -= greatest[e] < edges[e].least;
        greatest[e] += more_greatest;
        under += greatest[e] < edges[e].least;
    }
    low_cost += (wide)lines[line].cost * (lo - low[line]);
    low[line] = lo;
    high[line] = hi;
}
static wide bound() {
    wide value = low_cost;
    multipliers.clear();
    left_over = costs;
    for (size_t w = 0; w < is_short.size(); w++) for (unsigned long long rest = is_short[w]; rest; rest &= rest - 1) {
        int e = 64 * w + __builtin_ctzll(rest);
        ll missing = edges[e].least - least[e], amount = -1;
        for (int i : edges[e].lines) if (low[i] < high[i] && (amount < 0 || left_over[i] < amount)) amount = left_over[i];
        if (amount <= 0) continue;
        multipliers.push_back({e, amount});
        value += (wide)amount * missing;
        for (int i : edges[e].lines) left_over[i] = std::max(0LL, left_over[i] - amount);
    }
    return value;
}
static Node node_here() {
    if (over + under) for (size_t e = 0; e < edges.size(); e++) {
        if (edges[e].most < least[e]) return {1, (int)e, 0, {}};
        if (greatest[e] < edges[e].least) return {1, (int)e, 1, {}};
    }
    if (best_cost >= 0 && best_cost <= bound()) return {2, 0, 0, multipliers};
    for (int i : order) if (low[i] < high[i]) return {0, i, (low[i] + high[i]) / 2, {}};
    return {4, 0, 0, {}};
}
static std::string fixed(wide n) {
    char text[64];
    snprintf(text, sizeof text, "%lld.%06lld", (ll)(n / 1000000), (ll)(n % 1000000));
    std::string all = text;
    while (all.back() == '0') all.pop_back();
    if (all.back() == '.') all.pop_back();
    return all;
}
int main(int argc, char **argv) {
    ll budget = atoll(argv[1]);
    std::map<ll, int> edge_of, line_of;
    for (auto &r : rows("load.giv")) {
        edge_of[atoll(r[0].c_str())] = edges.size();
        edges.push_back({atoll(r[0].c_str()), atoi(r[2].c_str()), atoi(r[3].c_str()), {}});
    }
    for (auto &r : rows("costs.giv")) {
        line_of[atoll(r[0].c_str())] = lines.size();
        lines.push_back({atoll(r[0].c_str()), millionths(r[2]), {}});
    }
    for (auto &r : rows("pool.giv")) lines[line_of[atoll(r[0].c_str())]].edges.push_back(edge_of[atoll(r[2].c_str())]);
    least.assign(edges.size(), 0);
    greatest.assign(edges.size(), 0);
    is_short.assign(edges.size() / 64 + 1, 0);
    for (size_t e = 0; e < edges.size(); e++) {
        under += 0 < edges[e].least;
        if (0 < edges[e].least) is_short[e / 64] |= 1ULL << e % 64;
    }
    low.assign(lines.size(), 0);
    high.assign(lines.size(), 0);
    for (Line &line : lines) costs.push_back(line.cost);
    for (size_t i = 0; i < lines.size(); i++) {
        int most = 1000;
        for (int e : lines[i].edges) { edges[e].lines.push_back(i); most = std::min(most, edges[e].most); }
        set_range(i, 0, most);
        order.push_back(i);
    }
    std::stable_sort(order.begin(), order.end(), [](int a, int b) { return lines[a].cost > lines[b].cost; });
    std::vector<Node> tree;
    std::vector<Split> splits;
    ll entries = 0;
    bool whole = false;
    while (!whole && entries < budget) {
        entries++;
        tree.push_back(node_here());
        Node &node = tree.back();
        if (node.kind == 0) {
            splits.push_back({node.index, low[node.index], node.at, high[node.index], true});
            set_range(node.index, low[node.index], node.at);
            continue;
        }
        if (node.kind == 4) { best = low; best_cost = low_cost; }
        for (whole = true; whole && !splits.empty();) {
            Split &split = splits.back();
            if (split.in_lower) {
                split.in_lower = false;
                set_range(split.line, split.at + 1, split.hi);
                whole = false;
            } else {
                set_range(split.line, split.lo, split.hi);
                splits.pop_back();
            }
        }
    }
    if (best_cost < 0) { puts(whole ? "no solution" : "spent"); printf("%lld steps\n", entries + 1); return 0; }
    FILE *f = fopen("concept.plain", "w");
    fprintf(f, "# line-id; edge-order; edge-id; frequency\n");
    for (size_t i = 0; i < lines.size(); i++)
        for (size_t k = 0; k < lines[i].edges.size(); k++)
            fprintf(f, "%lld; %zu; %lld; %d\n", lines[i].id, k + 1, edges[lines[i].edges[k]].id, best[i]);
    fclose(f);
    f = fopen("report.plain", "w");
    fprintf(f, "concept: cost %s, %s, %lld entries", fixed(best_cost).c_str(), whole ? "optimal" : "not proved optimal", entries);
    fclose(f);
    if (whole) {
        f = fopen("tree.plain", "w");
        fprintf(f, "# kind; id; value; multiplier\n");
        for (Node &node : tree) {
            if (node.kind == 0) fprintf(f, "split; %lld; %d; 0\n", lines[node.index].id, node.at);
            if (node.kind == 1) fprintf(f, "empty; %lld; %d; 0\n", edges[node.index].id, node.at);
            if (node.kind == 4) fprintf(f, "point; 0; 0; 0\n");
            if (node.kind == 2) fprintf(f, "bound; %zu; 0; 0\n", node.multipliers.size());
            for (Multiplier &m : node.multipliers) fprintf(f, "mult; %lld; 0; %s\n", edges[m.edge].id, fixed(m.amount).c_str());
        }
        fclose(f);
    }
    printf("%lld steps\n", entries + 1);
}
