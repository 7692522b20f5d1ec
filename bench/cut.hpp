// What the peers of `quadq graph` and `quadq refine` share, which do all that these do: a mesh is traced by riders, and
// cut into patches and arcs. Nothing else uses it.
#pragma once
#include "soup.hpp"

enum Kind : uint8_t { regular, singular, corner, reflex };
enum Stop : uint8_t { runs, middle, boundary, at_singular, trail, tie };

struct Mesh {
    std::vector<Face> faces;
    uint32_t vertices;
    Fans fans;
    std::vector<uint32_t> twins;

    uint32_t from(uint32_t d) const { return faces[d / 4][d % 4]; }
    uint32_t to(uint32_t d) const { return from(next(d)); }
    uint32_t darts() const { return uint32_t(4 * faces.size()); }
    bool is_open(uint32_t d) const { return twins[d] == d; }
    uint32_t straight(uint32_t d) const { return next(twins[next(d)]); }
    uint32_t straight_back(uint32_t d) const { return prev(twins[prev(d)]); }
};

struct Rider {
    uint32_t start, at, rides;
    Stop stop;
};

struct Arc {
    uint32_t first, last, length;
    uint32_t begin;  // its darts begin here in the table of all
};

struct Patch {
    uint32_t width, height, least;
    std::vector<uint32_t> cells;
};

static std::vector<Kind> kinds_of(const Mesh& mesh) {
    std::vector<Kind> kinds(mesh.vertices);
    for (uint32_t v = 0; v < mesh.vertices; ++v) {
        uint32_t faces = mesh.fans.first[v + 1] - mesh.fans.first[v];
        bool inner = true;
        for (uint32_t i = mesh.fans.first[v]; i < mesh.fans.first[v + 1]; ++i) {
            uint32_t d = mesh.fans.darts[i];
            inner = inner && !mesh.is_open(d) && !mesh.is_open(prev(d));
        }
        kinds[v] = inner ? (faces == 4 ? regular : singular) : faces == 1 ? corner : faces == 2 ? regular : reflex;
    }
    return kinds;
}

// The number of components, and the least vertex of each that has regular vertices alone.
static uint32_t components(const Mesh& mesh, const std::vector<Kind>& kinds, std::vector<uint32_t>& seeds) {
    std::vector<bool> seen(mesh.faces.size());
    std::vector<uint32_t> waiting;
    uint32_t count = 0;
    for (uint32_t first = 0; first < mesh.faces.size(); ++first) {
        if (seen[first]) continue;
        ++count;
        uint32_t least = mesh.vertices;
        bool ring = true;
        seen[first] = true;
        waiting.push_back(first);
        while (!waiting.empty()) {
            uint32_t f = waiting.back();
            waiting.pop_back();
            for (uint32_t d = 4 * f; d < 4 * f + 4; ++d) {
                uint32_t v = mesh.from(d), g = mesh.twins[d] / 4;
                least = std::min(least, v);
                ring = ring && kinds[v] == regular;
                if (!seen[g]) seen[g] = true, waiting.push_back(g);
            }
        }
        if (ring) seeds.push_back(least);
    }
    std::sort(seeds.begin(), seeds.end());
    return count;
}

static std::vector<Rider> riders_of(const Mesh& mesh, const std::vector<Kind>& kinds,
                                    const std::vector<uint32_t>& seeds) {
    std::vector<Rider> riders;
    for (uint32_t d = 0; d < mesh.darts(); ++d) {
        uint32_t v = mesh.from(d);
        bool starts = kinds[v] == reflex || std::binary_search(seeds.begin(), seeds.end(), v);
        if (kinds[v] == singular || (starts && !mesh.is_open(d))) riders.push_back({d, d, 0, runs});
    }
    return riders;
}

// Moves all riders until none runs. The covered edges are marked at their darts.
static std::vector<bool> trace(const Mesh& mesh, const std::vector<Kind>& kinds, std::vector<Rider>& riders) {
    const uint32_t never = UINT32_MAX;
    std::vector<bool> covered(mesh.darts());
    std::vector<uint32_t> ridden(mesh.darts(), never), stood(mesh.vertices, never), running(riders.size());
    for (uint32_t r = 0; r < riders.size(); ++r) running[r] = r, stood[mesh.from(riders[r].start)] = 0;
    for (uint32_t instant = 1; !running.empty(); ++instant) {
        for (uint32_t r : running) {
            uint32_t d = riders[r].at;
            ridden[d] = instant;
            covered[d] = covered[mesh.twins[d]] = true;
            ++riders[r].rides;
        }
        auto arrives = [&](uint32_t d) { return ridden[d] == instant && ridden[mesh.twins[d]] != instant; };
        for (uint32_t r : running) {
            Rider& rider = riders[r];
            uint32_t d = rider.at, v = mesh.to(d);
            if (!mesh.is_open(d) && ridden[mesh.twins[d]] == instant) {
                rider.stop = middle;
                continue;
            }
            bool inner = true;
            if (kinds[v] != regular) rider.stop = kinds[v] == singular ? at_singular : boundary, inner = false;
            else if (mesh.fans.first[v + 1] - mesh.fans.first[v] == 2) rider.stop = boundary, inner = false;
            if (inner && stood[v] < instant) rider.stop = trail;
            else if (inner) {
                // One that arrives on the left gives way to this rider, unless there are more.
                uint32_t across = mesh.twins[mesh.straight(d)], on_the_right = prev(mesh.twins[d]);
                if (arrives(across) || arrives(on_the_right)) rider.stop = tie;
            }
            stood[v] = std::min(stood[v], instant);
        }
        size_t left = 0;
        for (uint32_t r : running)
            if (riders[r].stop == runs) riders[r].at = mesh.straight(riders[r].at), running[left++] = r;
        running.resize(left);
    }
    for (uint32_t d = 0; d < mesh.darts(); ++d)
        if (mesh.is_open(d)) covered[d] = true;
    return covered;
}

static std::vector<Patch> patches_of(const Mesh& mesh, const std::vector<bool>& covered) {
    std::vector<Patch> patches;
    std::vector<bool> seen(mesh.faces.size());
    for (uint32_t d = 0; d < mesh.darts(); ++d) {
        if (seen[d / 4] || !covered[d] || !covered[prev(d)]) continue;
        Patch patch{0, 0, d / 4, {}};
        for (uint32_t row = d;; row = mesh.twins[next(next(row))]) {
            for (uint32_t cell = row;; cell = mesh.straight(cell)) {
                patch.cells.push_back(cell);
                patch.least = std::min(patch.least, cell / 4);
                seen[cell / 4] = true;
                if (covered[next(cell)]) break;
            }
            ++patch.height;
            if (covered[next(next(row))]) break;
        }
        patch.width = uint32_t(patch.cells.size()) / patch.height;
        patches.push_back(std::move(patch));
    }
    std::sort(patches.begin(), patches.end(), [](auto& a, auto& b) { return a.least < b.least; });
    return patches;
}

// The arcs by their least darts, their darts, for each dart of the graph the arc that it is on, and the nodes.
struct Arcs {
    std::vector<Arc> arcs;
    std::vector<uint32_t> darts, arc_at, nodes;
};

static Arcs arcs_of(const Mesh& mesh, const std::vector<Kind>& kinds, const std::vector<bool>& covered) {
    std::vector<uint8_t> degrees(mesh.vertices);
    auto count = [&](uint32_t v) { degrees[v] += degrees[v] < 3; };
    for (uint32_t d = 0; d < mesh.darts(); ++d) {
        if (covered[d]) count(mesh.from(d));
        if (mesh.is_open(d)) count(mesh.to(d));
    }
    auto is_node = [&](uint32_t v) { return kinds[v] != regular || degrees[v] >= 3; };
    std::vector<Arc> arcs;
    std::vector<uint32_t> darts, arc_at(mesh.darts(), UINT32_MAX), nodes;
    for (uint32_t v = 0; v < mesh.vertices; ++v)
        if (is_node(v)) nodes.push_back(v);
    for (uint32_t d = 0; d < mesh.darts(); ++d) {
        if (!covered[d] || arc_at[d] != UINT32_MAX) continue;
        uint32_t at = d;
        while (!is_node(mesh.from(at))) at = mesh.straight_back(at);
        Arc arc{mesh.from(at), 0, 0, uint32_t(darts.size())};
        for (;; at = mesh.straight(at)) {
            arc_at[at] = arc_at[mesh.twins[at]] = uint32_t(arcs.size());
            ++arc.length;
            darts.push_back(at);
            if (is_node(mesh.to(at))) break;
        }
        arc.last = mesh.to(at);
        arcs.push_back(arc);
    }
    return {std::move(arcs), std::move(darts), std::move(arc_at), std::move(nodes)};
}

// The mesh of the standard input.
static Mesh read_mesh(std::vector<Place>& places) {
    std::vector<Face> faces;
    {
        std::string text = read_all();
        parse(text, places, faces);
    }
    drop_unused(places, faces);
    uint32_t vertices = uint32_t(places.size());
    Links links = link(faces, vertices);
    return {std::move(faces), vertices, std::move(links.fans), std::move(links.twins)};
}
