// The work of `qm_bench graph`, `nest`, `tree` and `comb` in plain C++, written from the descriptions of the matching
// graph and of duals, with the same words and the same output.
#include "network.hpp"
#include <algorithm>
#include <cstdint>
#include <cstdio>
#include <cstdlib>
#include <cstring>
#include <string>
#include <vector>

struct Dual {
    std::vector<int64_t> y, z;
    std::vector<uint32_t> up;
};

static const uint32_t PAIRS = 5000;

static Net network() {
    Net net{PAIRS, {}, 1, 1, 1};
    for (uint32_t j = 0; j < PAIRS; j++) {
        for (bool second : {false, true}) {
            uint32_t far = (j * 7 + 1) % PAIRS;
            std::optional<End> right;
            if (j % 3 == 0) right = End{far, second};
            if (j % 3 == 1) right = End{far, !second};
            net.arcs.push_back({{j, !second}, right, 1 + j * 13 % 9, 1 + j % 7});
        }
    }
    return net;
}

static std::vector<uint64_t> lengths() {
    std::vector<uint64_t> x;
    for (uint32_t j = 0; j < PAIRS; j++) {
        x.push_back(1 + j % 6);
        x.push_back(1 + j % 6);
    }
    return x;
}

// A nest of sets, a tree of sets by threes, or a comb: each set of a chain holds the one before it and two of three vertices.
static Dual dual_of(uint32_t n, const std::string &shape) {
    bool nest = shape == "nest", comb = shape == "comb";
    uint32_t sets = n == 0 ? 0 : (n - 1) / 2;
    if (comb) sets = (n / 3 > 0 ? (n / 3 - 1) / 2 : 0) * 3 + 1;
    uint32_t teeth = comb ? sets / 3 * 2 + 1 : sets;
    Dual d{std::vector<int64_t>(n, -1000000), std::vector<int64_t>(sets, 1), {}};
    d.up.reserve(n + sets);
    for (uint32_t v = 0; v < n; v++) {
        uint32_t around = nest ? std::max(1u, (v + 1) / 2) : v / 3 + 1;
        d.up.push_back(around <= teeth ? around : 0);
    }
    for (uint32_t k = 0; k < sets; k++) {
        uint32_t around = nest ? k + 2 : !comb ? (n + k) / 3 + 1 : k >= teeth ? k + 2 : teeth + (k == 0 ? 0 : k - 1) / 2 + 1;
        d.up.push_back(around <= sets ? around : 0);
    }
    return d;
}

static std::string number(i128 value) {
    bool minus = value < 0;
    std::string digits;
    do {
        int digit = int(value % 10);
        digits.insert(digits.begin(), char('0' + (digit < 0 ? -digit : digit)));
        value /= 10;
    } while (value != 0);
    return minus ? "-" + digits : digits;
}

static std::string dual_ok(const Graph &g, const Dual &d) {
    uint32_t n = g.n, sets = uint32_t(d.z.size());
    if (d.y.size() != n || d.up.size() != size_t(n) + sets) return "Shape";
    for (uint32_t k = 0; k < n + sets; k++) {
        uint32_t around = d.up[k];
        if (around > sets || (around != 0 && k >= n && around <= k - n + 1)) return "Shape";
    }
    std::vector<uint32_t> size(sets + 1, 0), inner(sets + 1, 0), head(sets + 1, 0);
    for (uint32_t v = 0; v < n; v++) size[d.up[v]]++;
    for (uint32_t k = 1; k <= sets; k++) {
        if (size[k] < 3 || size[k] % 2 == 0) return "Even";
        uint32_t around = d.up[n + k - 1];
        size[around] += size[k];
        if (inner[around] == 0 || size[inner[around]] < size[k]) inner[around] = k;
    }
    for (uint32_t k = 0; k < sets; k++)
        if (d.z[k] < 0) return "Negative";
    std::vector<i128> above(sets + 1, 0);
    for (uint32_t k = sets; k > 0; k--) {
        uint32_t around = d.up[n + k - 1];
        above[k] = d.z[k - 1] + above[around];
        head[k] = around != 0 && inner[around] == k ? head[around] : k;
    }
    for (const Edge &edge : g.edges) {
        uint32_t a = d.up[edge.u], b = d.up[edge.v];
        i128 load = i128(d.y[edge.u]) + d.y[edge.v] + above[a] + above[b];
        while (a != 0 && b != 0 && head[a] != head[b]) {
            if (head[a] < head[b]) a = d.up[n + head[a] - 1];
            else b = d.up[n + head[b] - 1];
        }
        if (a != 0 && b != 0) load -= 2 * above[a > b ? a : b];
        if (load > 2 * i128(edge.cost)) return "Short";
    }
    i128 sum = 0;
    for (int64_t y : d.y) sum += y;
    for (int64_t z : d.z) sum += z;
    return "Yes { sum: " + number(sum) + " }";
}

static void run(const Net &net, const std::vector<uint64_t> &x, const char *task, uint32_t times) {
    if (strcmp(task, "graph") == 0) {
        Graph g;
        for (uint32_t i = 0; i < times; i++) g = graph_of(net, x, 1);
        printf("%u vertices, %zu edges\n", g.n, g.edges.size());
        return;
    }
    Graph g = graph_of(net, x, 1);
    Dual d = dual_of(g.n, task);
    std::string verdict = dual_ok(g, d);
    for (uint32_t i = 1; i < times; i++) verdict = dual_ok(g, d);
    puts(verdict.c_str());
}

int main(int argc, char **argv) {
    Net net = network();
    std::vector<uint64_t> x = lengths();
    if (argc < 2) {
        for (const char *task : {"graph", "nest", "tree", "comb"}) run(net, x, task, 1);
        return 0;
    }
    run(net, x, argv[1], argc > 2 ? uint32_t(atol(argv[2])) : 1);
    return 0;
}
