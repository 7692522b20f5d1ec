// The plain C++ peer of `quadq graph`: reads an OBJ of quads, checks that it is a manifold, traces its motorcycle
// graph, cuts it into patches and prints the graph text.
#include "cut.hpp"

// A text that grows by words and numbers.
struct Text {
    std::string text;

    void word(const char* word) { text += word; }
    void number(int64_t n) {
        char digits[24];
        text += ' ';
        text.append(digits, std::to_chars(digits, digits + 24, n).ptr - digits);
    }
    void vertex(uint32_t v) { number(int64_t(v) + 1); }
    void end() { text += '\n'; }
};

static void print_riders(Text& out, const Mesh& mesh, const std::vector<Rider>& riders) {
    static const char* const names[] = {"", " middle", " boundary", " singular", " trail", " tie"};
    for (auto& rider : riders) {
        out.word("rider");
        out.vertex(mesh.from(rider.start));
        out.vertex(mesh.to(rider.start));
        out.number(rider.rides);
        out.word(names[rider.stop]);
        if (rider.stop == middle) out.vertex(mesh.from(rider.at));
        out.vertex(mesh.to(rider.at));
        out.end();
    }
}

static void print_patch(Text& out, const Patch& patch, const std::vector<Arc>& arcs,
                        const std::vector<uint32_t>& arc_at) {
    uint32_t w = patch.width, h = patch.height;
    auto side = [&](const char* name, uint32_t length, auto dart) {
        out.word(name);
        for (uint32_t i = 0; i < length;) {
            uint32_t arc = arc_at[dart(i)];
            out.number(int64_t(arc) + 1);
            i += arcs[arc].length;
        }
        out.end();
    };
    side("south", w, [&](uint32_t i) { return patch.cells[i]; });
    side("east", h, [&](uint32_t i) { return next(patch.cells[i * w + w - 1]); });
    side("north", w, [&](uint32_t i) { return next(next(patch.cells[(h - 1) * w + w - 1 - i])); });
    side("west", h, [&](uint32_t i) { return prev(patch.cells[(h - 1 - i) * w]); });
}

static std::string graph_text(const Mesh& mesh) {
    std::vector<Kind> kinds = kinds_of(mesh);
    std::vector<uint32_t> seeds;
    uint32_t parts = components(mesh, kinds, seeds);
    std::vector<Rider> riders = riders_of(mesh, kinds, seeds);
    std::vector<bool> covered = trace(mesh, kinds, riders);
    std::vector<Patch> patches = patches_of(mesh, covered);
    auto [arcs, darts, arc_at, nodes] = arcs_of(mesh, kinds, covered);
    int64_t open = 0;
    for (uint32_t d = 0; d < mesh.darts(); ++d) open += mesh.is_open(d);
    int64_t edges = (mesh.darts() + open) / 2, faces = int64_t(mesh.faces.size());
    Text out;
    out.word("quadq graph 1\nvertices"), out.number(mesh.vertices), out.word(" edges"), out.number(edges);
    out.word(" faces"), out.number(faces), out.word(" euler"), out.number(int64_t(mesh.vertices) - edges + faces);
    out.word(" components"), out.number(parts), out.end();
    static const char* const names[] = {"", "singular", "corner", "reflex"};
    for (uint32_t v = 0; v < mesh.vertices; ++v) {
        if (kinds[v] == regular) continue;
        out.word(names[kinds[v]]), out.vertex(v), out.number(mesh.fans.first[v + 1] - mesh.fans.first[v]), out.end();
    }
    for (uint32_t v : seeds) out.word("seed"), out.vertex(v), out.end();
    print_riders(out, mesh, riders);
    for (size_t k = 0; k < arcs.size(); ++k) {
        out.word("arc"), out.number(int64_t(k) + 1), out.vertex(arcs[k].first), out.vertex(arcs[k].last);
        out.number(arcs[k].length), out.end();
    }
    for (size_t p = 0; p < patches.size(); ++p) {
        out.word("patch"), out.number(int64_t(p) + 1), out.number(patches[p].width), out.number(patches[p].height);
        out.end();
        print_patch(out, patches[p], arcs, arc_at);
    }
    return std::move(out.text);
}

int main() {
    std::vector<Place> places;
    Mesh mesh = read_mesh(places);
    std::string text = graph_text(mesh);
    return std::fwrite(text.data(), 1, text.size(), stdout) == text.size() ? 0 : 1;
}
