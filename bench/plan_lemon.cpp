// Plans vehicles by LEMON's network simplex over the table of what each link gains, which plan_vehicles.cpp writes: a
// node for each trip as the one before and one as the one after, an arc of capacity 1 for each link, and a hub to and
// from which trips without a link go. Prints the cost, and microseconds of processor time for the graph and the run.
#include <lemon/network_simplex.h>
#include <lemon/static_graph.h>

#include <cmath>
#include <cstdint>
#include <cstdio>
#include <cstdlib>
#include <ctime>
#include <utility>
#include <vector>

typedef int64_t Int;

static std::vector<Int> gains_of(const char *name) {
    FILE *file = fopen(name, "rb");
    if (!file) { fprintf(stderr, "no file %s\n", name); exit(1); }
    fseek(file, 0, SEEK_END);
    std::vector<Int> gains(ftell(file) / sizeof(Int));
    rewind(file);
    if (fread(gains.data(), sizeof(Int), gains.size(), file) != gains.size()) exit(1);
    fclose(file);
    return gains;
}

int main(int argc, char **argv) {
    if (argc < 3) { fprintf(stderr, "lemon GAINS VEHICLE\n"); return 2; }
    std::vector<Int> gains = gains_of(argv[1]);
    int n = (int)std::lround(std::sqrt((double)gains.size())), hub = 2 * n;
    clock_t start = clock();
    // arcs by their first node, as a static graph wants them
    std::vector<std::pair<int, int>> arcs;
    std::vector<Int> costs;
    for (int i = 0; i < n; i++) {
        for (int j = 0; j < n; j++) {
            Int gain = gains[(size_t)i * n + j];
            if (gain > 0) { arcs.push_back({i, n + j}); costs.push_back(-gain); }
        }
        arcs.push_back({i, hub});
        costs.push_back(0);
    }
    for (int j = 0; j < n; j++) { arcs.push_back({hub, n + j}); costs.push_back(0); }
    lemon::StaticDigraph graph;
    graph.build(2 * n + 1, arcs.begin(), arcs.end());
    lemon::StaticDigraph::ArcMap<Int> cost(graph);
    lemon::StaticDigraph::ArcMap<Int> capacity(graph, 1);
    lemon::StaticDigraph::NodeMap<Int> supply(graph, 0);
    for (int a = 0; a < (int)arcs.size(); a++) cost[graph.arc(a)] = costs[a];
    for (int i = 0; i < n; i++) { supply[graph.node(i)] = 1; supply[graph.node(n + i)] = -1; }
    lemon::NetworkSimplex<lemon::StaticDigraph, Int, Int> simplex(graph);
    simplex.costMap(cost).upperMap(capacity).supplyMap(supply);
    if (simplex.run() != simplex.OPTIMAL) { fprintf(stderr, "no plan\n"); return 1; }
    Int sum = simplex.totalCost<Int>();
    long micros = (long)((clock() - start) * (1e6 / CLOCKS_PER_SEC));
    printf("%lld %ld\n", (long long)(atoll(argv[2]) * n + sum), micros);
}
