// The peer of `best`: the least cost of a perfect matching by LEMON's MaxWeightedPerfectMatching, of the graph that
// graphs.cpp writes. Prints the cost and the seconds of the processor that LEMON took.
#include <cstdint>
#include <cstdio>
#include <ctime>
#include <lemon/matching.h>
#include <lemon/smart_graph.h>
#include <vector>

int main() {
    unsigned n = 0;
    size_t m = 0;
    if (std::scanf("graph %u %zu", &n, &m) != 2) return 2;
    lemon::SmartGraph graph;
    graph.reserveNode(n);
    graph.reserveEdge(m);
    std::vector<lemon::SmartGraph::Node> nodes;
    for (unsigned v = 0; v < n; ++v) nodes.push_back(graph.addNode());
    lemon::SmartGraph::EdgeMap<int64_t> weights(graph);
    for (size_t i = 0; i < m; ++i) {
        unsigned u, v;
        long long cost;
        if (std::scanf("%u %u %lld", &u, &v, &cost) != 3) return 2;
        weights[graph.addEdge(nodes[u], nodes[v])] = -cost;
    }
    const std::clock_t start = std::clock();
    lemon::MaxWeightedPerfectMatching<lemon::SmartGraph, lemon::SmartGraph::EdgeMap<int64_t>> matching(graph, weights);
    if (!matching.run()) return std::puts("no perfect matching"), 1;
    double seconds = double(std::clock() - start) / CLOCKS_PER_SEC;
    std::printf("cost %lld seconds %.3f\n", -(long long)matching.matchingWeight(), seconds);
    return 0;
}
