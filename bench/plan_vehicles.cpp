// Plans vehicles for the trips of a file, as a plain program: the table of what each link gains, and an assignment of
// trips to trips of greatest gain, by shortest augmenting paths over a dense matrix of doubles (D. F. Crouse, 2016, as
// in SciPy's linear_sum_assignment) or by the network simplex with block search (as in LEMON).
#include <chrono>
#include <cmath>
#include <cstdint>
#include <cstdio>
#include <cstdlib>
#include <cstring>
#include <map>
#include <queue>
#include <string>
#include <vector>

using std::vector;
typedef int64_t Int;
const double INF = INFINITY;

// The numbers of a file of rows; texts are 0.
static vector<vector<Int>> rows_of(const char *name) {
    vector<vector<Int>> rows;
    FILE *file = fopen(name, "r");
    if (!file) { fprintf(stderr, "no file %s\n", name); exit(1); }
    char line[4096];
    while (fgets(line, sizeof line, file)) {
        vector<Int> row;
        for (char *at = strtok(line, ";"); at; at = strtok(nullptr, ";")) row.push_back(atoll(at));
        rows.push_back(row);
    }
    fclose(file);
    return rows;
}

struct Trip { Int start, end; int from, to; };

// What each link gains, in millionths; -1 where there is none, or it would cost more than a vehicle.
static vector<Int> gains_of(const vector<vector<Int>> &stops, const vector<vector<Int>> &edges,
                            const vector<Trip> &trips, Int turnover, Int vehicle, Int empty) {
    size_t n = trips.size(), count = stops.size();
    vector<vector<std::pair<int, Int>>> next(count);
    std::map<Int, int> index;
    for (size_t s = 0; s < count; s++) index[stops[s][0]] = s;
    for (auto &e : edges) {
        next[index[e[1]]].push_back({index[e[2]], e[4]});
        next[index[e[2]]].push_back({index[e[1]], e[4]});
    }
    vector<Int> gains(n * n, -1);
    vector<vector<Int>> least(count);
    for (size_t i = 0; i < n; i++) {
        vector<Int> &dead = least[trips[i].to];
        if (dead.empty()) {
            dead.assign(count, -1);
            typedef std::pair<Int, int> At;
            std::priority_queue<At, vector<At>, std::greater<At>> queue;
            queue.push({0, trips[i].to});
            while (!queue.empty()) {
                auto [minutes, s] = queue.top();
                queue.pop();
                if (dead[s] >= 0) continue;
                dead[s] = minutes;
                for (auto [t, more] : next[s]) if (dead[t] < 0) queue.push({minutes + more, t});
            }
        }
        for (size_t j = 0; j < n; j++) {
            Int minutes = dead[trips[j].from];
            if (minutes >= 0 && trips[i].end + turnover + minutes <= trips[j].start) {
                Int gain = vehicle - empty * minutes;
                gains[i * n + j] = gain < 0 ? -1 : gain;
            }
        }
    }
    return gains;
}

// Shortest augmenting paths over a dense matrix of costs.
struct Assignment {
    long claims = 0;
    double solve(size_t n, const vector<double> &cost) {
        vector<double> u(n, 0), v(n, 0), shortest(n);
        vector<long> path(n, -1), col4row(n, -1), row4col(n, -1), remaining(n);
        vector<bool> SR(n), SC(n);
        for (size_t row = 0; row < n; row++) {
            double least = 0;
            size_t left = n, i = row;
            for (size_t it = 0; it < n; it++) remaining[it] = n - it - 1;
            std::fill(SR.begin(), SR.end(), false);
            std::fill(SC.begin(), SC.end(), false);
            std::fill(shortest.begin(), shortest.end(), INF);
            long sink = -1;
            while (sink == -1) {
                long index = -1;
                double lowest = INF;
                SR[i] = true;
                claims++;
                for (size_t it = 0; it < left; it++) {
                    long j = remaining[it];
                    double r = least + cost[i * n + j] - u[i] - v[j];
                    if (r < shortest[j]) { path[j] = i; shortest[j] = r; }
                    if (shortest[j] < lowest || (shortest[j] == lowest && row4col[j] == -1)) {
                        lowest = shortest[j];
                        index = it;
                    }
                }
                least = lowest;
                long j = remaining[index];
                if (row4col[j] == -1) sink = j; else i = row4col[j];
                SC[j] = true;
                remaining[index] = remaining[--left];
            }
            u[row] += least;
            for (size_t r = 0; r < n; r++) if (SR[r] && r != row) u[r] += least - shortest[col4row[r]];
            for (size_t j = 0; j < n; j++) if (SC[j]) v[j] -= least - shortest[j];
            for (long j = sink;;) {
                long r = path[j];
                row4col[j] = r;
                std::swap(col4row[r], j);
                if (r == (long)row) break;
            }
        }
        double sum = 0;
        for (size_t r = 0; r < n; r++) sum += cost[r * n + col4row[r]];
        return sum;
    }
};

// The network simplex: a root, a node for each trip as the one before and one as the one after; arcs of capacity 1.
struct Simplex {
    vector<int> source, target;
    vector<Int> cost, pi;
    vector<char> state, flow, cap;  // state: 0 in the tree, 1 at its lower bound, -1 at its upper one
    vector<int> parent, pred, thread, rev_thread, succ_num, last_succ;
    vector<char> pred_dir;  // 1: up to the parent, -1: down
    long pivots = 0;
    size_t next_arc = 0;

    Int solve(size_t n, const vector<Int> &gains) {
        int nodes = 2 * n + 1, hub = 2 * n;
        auto arc = [&](int s, int t, Int c) { source.push_back(s); target.push_back(t); cost.push_back(c); };
        for (size_t i = 0; i < n; i++)
            for (size_t j = 0; j < n; j++)
                if (gains[i * n + j] >= 0) arc(i, n + j, -gains[i * n + j]);
        size_t links = source.size();
        // each trip's left node has a supply of 1 and its right node a demand of 1; the hub joins those without a link
        for (size_t i = 0; i < n; i++) arc(i, hub, 0);
        for (size_t i = 0; i < n; i++) arc(hub, n + i, 0);
        size_t arcs = source.size();
        state.assign(arcs, 1);
        flow.assign(arcs, 0);
        pi.assign(nodes, 0);
        parent.assign(nodes, hub); pred.assign(nodes, -1); thread.assign(nodes, 0); rev_thread.assign(nodes, 0);
        succ_num.assign(nodes, 1); last_succ.assign(nodes, 0); pred_dir.assign(nodes, 1);
        // the first tree is the hub with all others below it: no trip has a link. The hub is the last in node order, so
        // the thread begins there.
        parent[hub] = -1;
        succ_num[hub] = nodes; last_succ[hub] = hub - 1;
        thread[hub] = 0; rev_thread[hub] = hub - 1;
        for (int x = 0; x < hub; x++) {
            pred[x] = links + x;
            pred_dir[x] = x < (int)n ? 1 : -1;
            thread[x] = x + 1 < hub ? x + 1 : hub;
            rev_thread[x] = x ? x - 1 : hub;
            last_succ[x] = x;
            flow[links + x] = 1;
            state[links + x] = 0;
        }
        // LEMON: block size is the root of the number of arcs, at least 10
        size_t block = std::max<size_t>((size_t)std::sqrt((double)arcs), 10);
        int in;
        while ((in = find(arcs, block)) >= 0) { pivot(in); pivots++; }
        Int sum = 0;
        for (size_t a = 0; a < links; a++) if (flow[a]) sum += cost[a];
        return sum;
    }
    // An arc into the tree: the best one of a block in which there is one.
    int find(size_t arcs, size_t block) {
        Int least = 0;
        int best = -1;
        size_t left = block, e = next_arc;
        for (size_t seen = 0; seen < arcs; seen++) {
            Int c = state[e] * (cost[e] + pi[source[e]] - pi[target[e]]);
            if (c < least) { least = c; best = e; }
            if (++e == arcs) e = 0;
            if (--left == 0) {
                if (best >= 0) break;
                left = block;
            }
        }
        next_arc = e;
        return best;
    }
    void pivot(int in) {
        int first, second;
        if (state[in] == 1) { first = source[in]; second = target[in]; } else { first = target[in]; second = source[in]; }
        int join = source[in], other = target[in];
        while (join != other) {
            if (succ_num[join] < succ_num[other]) join = parent[join]; else other = parent[other];
        }
        // flow goes from first to second over the new arc: on the way up from second it goes up, and down to first;
        // arcs of the hub are bounded below alone (their capacity is taken as 1, which never binds)
        Int delta = 1;
        int result = 0, out = -1;
        for (int x = first; x != join; x = parent[x]) {
            int e = pred[x];
            Int d = pred_dir[x] == -1 ? 1 - flow[e] : flow[e];
            if (d < delta) { delta = d; out = x; result = 1; }
        }
        for (int x = second; x != join; x = parent[x]) {
            int e = pred[x];
            Int d = pred_dir[x] == 1 ? 1 - flow[e] : flow[e];
            if (d <= delta) { delta = d; out = x; result = 2; }
        }
        if (delta > 0) {
            int value = state[in] * delta;
            flow[in] += value;
            for (int x = source[in]; x != join; x = parent[x]) flow[pred[x]] -= pred_dir[x] * value;
            for (int x = target[in]; x != join; x = parent[x]) flow[pred[x]] += pred_dir[x] * value;
        }
        if (result == 0) { state[in] = -state[in]; return; }
        int u_in = result == 1 ? first : second, v_in = result == 1 ? second : first;
        state[in] = 0;
        state[pred[out]] = flow[pred[out]] == 0 ? 1 : -1;
        update(in, u_in, v_in, out, join);
    }
    vector<int> dirty;
    void update(int in, int u_in, int v_in, int u_out, int join) {
        int old_rev = rev_thread[u_out], old_succ = succ_num[u_out], old_last = last_succ[u_out], v_out = parent[u_out];
        if (u_in == u_out) {
            parent[u_in] = v_in; pred[u_in] = in; pred_dir[u_in] = u_in == source[in] ? 1 : -1;
            if (thread[v_in] != u_out) {
                int after = thread[old_last];
                thread[old_rev] = after; rev_thread[after] = old_rev;
                after = thread[v_in];
                thread[v_in] = u_out; rev_thread[u_out] = v_in;
                thread[old_last] = after; rev_thread[after] = old_last;
            }
        } else {
            int thread_continue = old_rev == v_in ? thread[old_last] : thread[v_in];
            int stem = u_in, par_stem = v_in, last = last_succ[u_in], before, after = thread[last];
            thread[v_in] = u_in;
            dirty.clear(); dirty.push_back(v_in);
            while (stem != u_out) {
                int next_stem = parent[stem];
                thread[last] = next_stem; dirty.push_back(last);
                before = rev_thread[stem];
                thread[before] = after; rev_thread[after] = before;
                parent[stem] = par_stem; par_stem = stem; stem = next_stem;
                last = last_succ[stem] == last_succ[par_stem] ? rev_thread[par_stem] : last_succ[stem];
                after = thread[last];
            }
            parent[u_out] = par_stem;
            thread[last] = thread_continue; rev_thread[thread_continue] = last;
            last_succ[u_out] = last;
            if (old_rev != v_in) { thread[old_rev] = after; rev_thread[after] = old_rev; }
            for (int u : dirty) rev_thread[thread[u]] = u;
            int tmp_sc = 0, tmp_ls = last_succ[u_out];
            for (int u = u_out, p = parent[u]; u != u_in; u = p, p = parent[u]) {
                pred[u] = pred[p]; pred_dir[u] = -pred_dir[p];
                tmp_sc += succ_num[u] - succ_num[p]; succ_num[u] = tmp_sc; last_succ[p] = tmp_ls;
            }
            pred[u_in] = in; pred_dir[u_in] = u_in == source[in] ? 1 : -1; succ_num[u_in] = old_succ;
        }
        int up_limit_out = last_succ[join] == v_in ? join : -1, last_out = last_succ[u_out];
        for (int u = v_in; u != -1 && last_succ[u] == v_in; u = parent[u]) last_succ[u] = last_out;
        if (join != old_rev && v_in != old_rev) {
            for (int u = v_out; u != up_limit_out && last_succ[u] == old_last; u = parent[u]) last_succ[u] = old_rev;
        } else if (last_out != old_last) {
            for (int u = v_out; u != up_limit_out && last_succ[u] == old_last; u = parent[u]) last_succ[u] = last_out;
        }
        for (int u = v_in; u != join; u = parent[u]) succ_num[u] += old_succ;
        for (int u = v_out; u != join; u = parent[u]) succ_num[u] -= old_succ;
        Int sigma = pi[v_in] - pi[u_in] - pred_dir[u_in] * cost[in];
        int end = thread[last_succ[u_in]];
        for (int u = u_in; u != end; u = thread[u]) pi[u] += sigma;
    }
};

int main(int argc, char **argv) {
    if (argc < 8) { fprintf(stderr, "plan STOPS EDGES TRIPS TURNOVER VEHICLE EMPTY matrix|simplex|gains|read\n"); return 2; }
    auto stops = rows_of(argv[1]), edges = rows_of(argv[2]), rows = rows_of(argv[3]);
    std::map<Int, int> index;
    for (size_t s = 0; s < stops.size(); s++) index[stops[s][0]] = s;
    vector<Trip> trips;
    for (auto &r : rows) trips.push_back({r[3], r[7], index[r[2]], index[r[6]]});
    size_t n = trips.size();
    Int vehicle = atoll(argv[5]);
    std::string way = argv[7];
    auto start = std::chrono::steady_clock::now();
    Int gain = 0;
    long steps = 0;
    if (way != "read") {
        vector<Int> gains = gains_of(stops, edges, trips, atoll(argv[4]), vehicle, atoll(argv[6]));
        if (way == "gains") {
            fwrite(gains.data(), sizeof(Int), n * n, stdout);
            return 0;
        }
        if (way == "simplex") {
            Simplex simplex;
            gain = -simplex.solve(n, gains);
            steps = simplex.pivots;
        } else {
            vector<double> cost(n * n);
            for (size_t at = 0; at < n * n; at++) cost[at] = gains[at] > 0 ? -(double)gains[at] : 0;
            Assignment assignment;
            gain = (Int)-assignment.solve(n, cost);
            steps = assignment.claims;
        }
    }
    long micros = std::chrono::duration_cast<std::chrono::microseconds>(std::chrono::steady_clock::now() - start).count();
    printf("%lld %ld %ld\n", (long long)(vehicle * (Int)n - gain), micros, steps);
}
