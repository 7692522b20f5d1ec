// Networks and their matching graphs, for the peers: written from the descriptions alone.
#pragma once
#include <cstdint>
#include <optional>
#include <vector>

struct End {
    uint32_t node;
    bool plus;
};

struct Arc {
    End left;
    std::optional<End> right;
    uint32_t old, weight;
};

struct Net {
    uint32_t nodes;
    std::vector<Arc> arcs;
    uint32_t floor, p, q;
};

struct Edge {
    uint32_t u, v;
    int64_t cost;
};

struct Graph {
    uint32_t n = 0;
    std::vector<Edge> edges;
};

using i128 = __int128;

struct Unit {
    const Arc *arc;
    int64_t cost;
    bool on;
    uint32_t own;
};

static int64_t deviation(const Net &net, const Arc &arc, uint64_t length) {
    i128 far = i128(net.q) * length - i128(net.p) * arc.old;
    return int64_t(arc.weight * (far < 0 ? -far : far));
}

static Graph graph_of(const Net &net, const std::vector<uint64_t> &x, uint64_t step) {
    std::vector<Unit> units;
    std::vector<uint64_t> lows;
    std::vector<uint32_t> caps;
    for (size_t i = 0; i < net.arcs.size(); i++) {
        const Arc &arc = net.arcs[i];
        uint64_t down = (x[i] - net.floor) / step;
        if (down > 2) down = 2;
        uint64_t low = x[i] - down * step;
        lows.push_back(low);
        caps.push_back(uint32_t(down + 2));
        for (uint64_t k = 0; k < down + 2; k++) {
            int64_t cost = deviation(net, arc, low + (k + 1) * step) - deviation(net, arc, low + k * step);
            units.push_back({&arc, cost, k < down, 0});
        }
    }
    std::vector<uint32_t> first(net.nodes + 1, 0);
    auto count = [&](const End &end, bool on) { first[end.node + 1] += end.plus == on; };
    for (const Unit &unit : units) {
        count(unit.arc->left, unit.on);
        if (unit.arc->right) count(*unit.arc->right, unit.on);
    }
    for (uint32_t v = 0; v < net.nodes; v++) first[v + 1] += first[v];
    Graph g;
    g.n = first[net.nodes];
    std::vector<uint32_t> rim;
    bool lone = false;
    for (Unit &unit : units) {
        unit.own = g.n;
        const Arc &arc = *unit.arc;
        g.n += arc.right && arc.left.plus != arc.right->plus ? 1 : 2;
        if (!arc.right) {
            rim.push_back(unit.own + 1);
            lone ^= arc.left.plus == unit.on;
        }
    }
    auto room = [&](const End &end) { return size_t(first[end.node + 1] - first[end.node]); };
    size_t many = 4 * rim.size();
    for (const Unit &unit : units) many += room(unit.arc->left) + (unit.arc->right ? room(*unit.arc->right) : 0) + 1;
    g.edges.reserve(many);
    auto fan = [&](uint32_t u, const End &end, int64_t cost) {
        for (uint32_t copy = first[end.node]; copy < first[end.node + 1]; copy++) g.edges.push_back({u, copy, cost});
    };
    for (const Unit &unit : units) {
        const Arc &arc = *unit.arc;
        const End &left = arc.left;
        uint32_t u = unit.own;
        fan(u, left, left.plus ? unit.cost : 0);
        if (!arc.right) {
            g.edges.push_back({u, u + 1, left.plus ? 0 : unit.cost});
        } else if (left.plus != arc.right->plus) {
            fan(u, *arc.right, arc.right->plus ? unit.cost : 0);
        } else {
            fan(u + 1, *arc.right, 0);
            g.edges.push_back({u, u + 1, left.plus ? 0 : unit.cost});
        }
    }
    uint32_t at = g.n;
    if (lone) at++;
    for (size_t i = 0; i < rim.size(); i++) {
        bool before = i > 0 || lone, after = i + 1 < rim.size();
        uint32_t b = i > 0 ? at - 1 : g.n;
        if (before) g.edges.push_back({b, rim[i], 0});
        if (after) {
            g.edges.push_back({rim[i], at, 0});
            if (before) g.edges.push_back({b, at, 0});
            g.edges.push_back({at, at + 1, 0});
            at += 2;
        }
    }
    g.n = at;
    return g;
}
