// The plain C++ peer of `quadq refine --by K`: reads an OBJ of quads, checks that it is a manifold, traces its
// motorcycle graph, and writes the mesh with each edge divided in K, patch by patch.
#include "cut.hpp"

// A text that goes out in pieces of 65,536 bytes.
struct Out {
    std::array<char, 1 << 16> buffer;
    size_t held = 0;

    char* room(size_t count) {
        if (held + count > buffer.size()) flush();
        return buffer.data() + held;
    }
    void took(const char* end) { held = size_t(end - buffer.data()); }
    void flush() {
        if (std::fwrite(buffer.data(), 1, held, stdout) != held) fail("write fault");
        held = 0;
    }
};

static char* put_millionths(char* at, int64_t n) {
    *at++ = ' ';
    if (n < 0) *at++ = '-', n = -n;
    at = std::to_chars(at, at + 20, n / 1000000).ptr;
    if (int64_t rest = n % 1000000) {
        char digits[8];
        std::to_chars(digits, digits + 8, 1000000 + rest);
        int count = 6;
        while (digits[count] == '0') --count;
        *at++ = '.';
        for (int i = 1; i <= count; ++i) *at++ = digits[i];
    }
    return at;
}

static void put_place(Out& out, const Place& place) {
    char* at = out.room(64);
    *at++ = 'v';
    for (int64_t n : place) at = put_millionths(at, n);
    *at++ = '\n';
    out.took(at);
}

static void put_face(Out& out, uint32_t a, uint32_t b, uint32_t c, uint32_t d) {
    char* at = out.room(64);
    *at++ = 'f';
    for (uint32_t v : {a, b, c, d}) *at++ = ' ', at = std::to_chars(at, at + 12, v + 1).ptr;
    *at++ = '\n';
    out.took(at);
}

// The new points of one side of a patch: their numbers, and their parameters on the old side.
struct Side {
    std::vector<uint32_t> numbers;
    std::vector<uint64_t> parameters;
};

static const uint64_t ONE = uint64_t(1) << 32;

struct Refiner {
    const Mesh& mesh;
    const std::vector<Place>& places;
    const Arcs& cut;
    uint64_t by;
    std::vector<uint32_t> node_of, first_inner;

    // Point k of an arc, which has by * length parts.
    uint32_t on_arc(uint32_t a, uint64_t k) const {
        const Arc& arc = cut.arcs[a];
        if (k == 0) return node_of[arc.first];
        if (k == by * arc.length) return node_of[arc.last];
        return first_inner[a] + uint32_t(k - 1);
    }

    // A side of so many old edges from its west or south end: `dart` gives its darts in the patch's own direction, and
    // `along` says whether they run from that end.
    template <class D> Side side(uint32_t length, bool along, D dart) const {
        Side side;
        for (uint32_t i = 0; i < length;) {
            uint32_t d = along ? dart(i) : dart(length - 1 - i), a = cut.arc_at[d];
            const Arc& arc = cut.arcs[a];
            // Forwards where the arc has this very dart at its begin, or its twin at its end, seen from here.
            bool forward = (along ? mesh.from(d) : mesh.to(d)) == mesh.from(cut.darts[arc.begin]) &&
                           (cut.darts[arc.begin] == d || mesh.twins[cut.darts[arc.begin]] == d);
            uint64_t parts = by * arc.length;
            for (uint64_t k = 0; k < parts; ++k) {
                side.numbers.push_back(on_arc(a, forward ? k : parts - k));
                side.parameters.push_back(ONE * i + ONE * k * arc.length / parts);
            }
            i += arc.length;
            if (i == length) {
                side.numbers.push_back(on_arc(a, forward ? parts : 0));
                side.parameters.push_back(ONE * i);
            }
        }
        return side;
    }

    std::array<Side, 4> sides(const Patch& patch) const {
        uint32_t w = patch.width, h = patch.height;
        return {side(w, true, [&](uint32_t i) { return patch.cells[i]; }),
                side(h, true, [&](uint32_t i) { return next(patch.cells[i * w + w - 1]); }),
                side(w, false, [&](uint32_t i) { return next(next(patch.cells[(h - 1) * w + w - 1 - i])); }),
                side(h, false, [&](uint32_t i) { return prev(patch.cells[(h - 1 - i) * w]); })};
    }

    void put_arc(Out& out, const Arc& arc) const {
        int64_t old = arc.length, parts = int64_t(by) * old;
        for (int64_t k = 1; k < parts; ++k) {
            int64_t i = k * old / parts, r = k * old - i * parts;
            uint32_t d = cut.darts[arc.begin + i];
            const Place &p = places[mesh.from(d)], &q = places[mesh.to(d)];
            Place place;
            for (int c = 0; c < 3; ++c) {
                __int128 top = __int128(2) * r * (q[c] - p[c]) + parts;
                __int128 whole = top / (2 * parts);
                place[c] = p[c] + int64_t(whole - (whole * (2 * parts) > top));
            }
            put_place(out, place);
        }
    }

    void put_inside(Out& out, const Patch& patch, const std::array<Side, 4>& s) const {
        uint64_t w = patch.width, h = patch.height, W = s[0].numbers.size() - 1, H = s[1].numbers.size() - 1;
        for (uint64_t j = 1; j < H; ++j)
            for (uint64_t i = 1; i < W; ++i) {
                uint64_t u = uint64_t(((unsigned __int128)s[0].parameters[i] * (H - j) + (unsigned __int128)s[2].parameters[i] * j) / H);
                uint64_t v = uint64_t(((unsigned __int128)s[3].parameters[j] * (W - i) + (unsigned __int128)s[1].parameters[j] * i) / W);
                uint64_t a = std::min(u / ONE, w - 1), b = std::min(v / ONE, h - 1), e = u - a * ONE, f = v - b * ONE;
                uint32_t d = patch.cells[b * w + a];
                const Place &p00 = places[mesh.from(d)], &p10 = places[mesh.to(d)], &p11 = places[mesh.to(next(d))],
                            &p01 = places[mesh.from(prev(d))];
                Place place;
                for (int c = 0; c < 3; ++c) {
                    __int128 sum = __int128(p00[c]) * ((ONE - e)) * ((ONE - f)) + __int128(p10[c]) * e * ((ONE - f)) +
                                   __int128(p01[c]) * ((ONE - e)) * f + __int128(p11[c]) * e * f;
                    place[c] = int64_t((sum + (__int128(1) << 63)) >> 64);
                }
                put_place(out, place);
            }
    }

    static void put_faces(Out& out, const std::array<Side, 4>& s, uint32_t inner) {
        uint32_t W = uint32_t(s[0].numbers.size() - 1), H = uint32_t(s[1].numbers.size() - 1);
        std::vector<uint32_t> low = s[0].numbers, high(W + 1);
        for (uint32_t j = 0; j < H; ++j, low.swap(high)) {
            if (j + 1 == H) high = s[2].numbers;
            else {
                high[0] = s[3].numbers[j + 1], high[W] = s[1].numbers[j + 1];
                for (uint32_t i = 1; i < W; ++i) high[i] = inner + j * (W - 1) + i - 1;
            }
            for (uint32_t i = 0; i < W; ++i) put_face(out, low[i], low[i + 1], high[i + 1], high[i]);
        }
    }
};

int main(int count, char** words) {
    if (count != 2) fail("refine K");
    uint64_t by = std::strtoull(words[1], nullptr, 10);
    std::vector<Place> places;
    Mesh mesh = read_mesh(places);
    std::vector<Kind> kinds = kinds_of(mesh);
    std::vector<uint32_t> seeds;
    components(mesh, kinds, seeds);
    std::vector<Rider> riders = riders_of(mesh, kinds, seeds);
    std::vector<bool> covered = trace(mesh, kinds, riders);
    std::vector<Patch> patches = patches_of(mesh, covered);
    Arcs cut = arcs_of(mesh, kinds, covered);
    Refiner refiner{mesh, places, cut, by, std::vector<uint32_t>(mesh.vertices), {}};
    uint32_t points = 0;
    for (uint32_t v : cut.nodes) refiner.node_of[v] = points++;
    for (auto& arc : cut.arcs) refiner.first_inner.push_back(points), points += uint32_t(by * arc.length - 1);
    static Out out;
    std::string head = "#quadq 1 refine by " + std::string(words[1]) + "\n";
    char* at = out.room(64);
    out.took(std::copy(head.begin(), head.end(), at));
    for (uint32_t v : cut.nodes) put_place(out, places[v]);
    for (auto& arc : cut.arcs) refiner.put_arc(out, arc);
    for (auto& patch : patches) refiner.put_inside(out, patch, refiner.sides(patch));
    for (auto& patch : patches) {
        refiner.put_faces(out, refiner.sides(patch), points);
        points += uint32_t((by * patch.width - 1) * (by * patch.height - 1));
    }
    out.flush();
}
