// Writes a graph with costs to standard output, `graph N M` and then a line `U V COST` an edge, vertices from 0:
//   random SEED N        a perfect matching of N vertices and as many further edges as make the average degree 4
//   network SEED         the matching graph at the old lengths of the layout whose graph text, as `quadq graph` writes
//                        it, stands on standard input, with wishes and weights by chance
#include "network.hpp"
#include <cstdio>
#include <cstdlib>
#include <iostream>
#include <numeric>
#include <random>
#include <sstream>
#include <string>
#include <string_view>

static Graph random_graph(uint32_t seed, uint32_t n) {
    std::mt19937 random(seed);
    Graph g{n, {}};
    std::vector<uint32_t> order(n);
    std::iota(order.begin(), order.end(), 0u);
    for (uint32_t i = n; i > 1; --i) std::swap(order[i - 1], order[random() % i]);
    for (uint32_t i = 0; i + 1 < n; i += 2) g.edges.push_back({order[i], order[i + 1], int64_t(random() % 1001)});
    while (g.edges.size() < 2 * size_t(n)) {
        uint32_t u = random() % n, v = random() % n;
        if (u != v) g.edges.push_back({u, v, int64_t(random() % 1001)});
    }
    return g;
}

// The network of a layout, with its old lengths: two nodes for each patch, plus at south and east, minus at north and
// west.
static Net read_network(std::istream& text) {
    Net net{0, {}, 1, 1, 1};
    std::vector<uint32_t> ends;
    for (std::string line; std::getline(text, line);) {
        std::istringstream words(line);
        std::string word;
        words >> word;
        if (word == "arc") {
            uint32_t number, first, last, old;
            words >> number >> first >> last >> old;
            net.arcs.push_back({{0, false}, std::nullopt, old, 1});
            ends.push_back(0);
        } else if (word == "patch") {
            net.nodes += 2;
        } else if (word == "south" || word == "east" || word == "north" || word == "west") {
            End end{net.nodes - (word == "south" || word == "north" ? 2 : 1), word == "south" || word == "east"};
            for (uint32_t arc; words >> arc;) {
                if (ends[arc - 1]++ == 0) net.arcs[arc - 1].left = end;
                else net.arcs[arc - 1].right = end;
            }
        }
    }
    return net;
}

// The matching graph at the old lengths, where each arc wishes another length, from 1 to twice the old one and two.
static Graph network_graph(uint32_t seed, Net net) {
    std::mt19937 random(seed);
    std::vector<uint64_t> lengths;
    for (auto& arc : net.arcs) {
        lengths.push_back(arc.old);
        arc.old = 1 + random() % (2 * arc.old + 2);
        arc.weight = 1 + random() % 7;
    }
    return graph_of(net, lengths, 1);
}

int main(int argc, char** argv) {
    std::string_view what = argc > 1 ? argv[1] : "";
    auto number = [&](int at) { return uint32_t(std::atol(argv[at])); };
    Graph g;
    if (what == "random" && argc == 4) g = random_graph(number(2), number(3));
    else if (what == "network" && argc == 3) g = network_graph(number(2), read_network(std::cin));
    else return std::fprintf(stderr, "usage: graphs random SEED N | network SEED\n"), 2;
    std::printf("graph %u %zu\n", g.n, g.edges.size());
    for (auto& edge : g.edges) std::printf("%u %u %lld\n", edge.u, edge.v, (long long)edge.cost);
}
