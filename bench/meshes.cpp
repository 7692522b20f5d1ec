// Writes a quad mesh as OBJ to standard output:
//   grid W H     a flat grid of W by H faces
//   holes W H    the same without every face whose column and row are 32 above a multiple of 64, so that riders run
//   cube N       the surface of a cube of N by N faces a side
//   voxels N     a terrain of N by N columns whose heights go up or down by one at each step: each inner vertex is
//                irregular
//   plate N      a flat grid of N by N faces with holes at random, each of 1 to 4 by 1 to 4 faces and no two of them
//                touching, until a seventh of the faces are left out
//   steps N      N plates apart from each other, each of four columns two faces wide and 1, 4, 3 and 2 faces high
//   torus N K    a torus of N by N faces, a hundred units long each, of which one in K shares an edge that is turned
//                within the six sides of its two faces: each end of it is irregular
//   hills N      a terrain of voxels of N by N columns, whose heights are a sum of waves
//   comb N       a row of N faces, with one more face above every second
//   fan N        N faces around one vertex
#include <algorithm>
#include <array>
#include <charconv>
#include <cmath>
#include <cstdint>
#include <cstdio>
#include <cstdlib>
#include <string>
#include <string_view>
#include <unordered_map>
#include <vector>

using Point = std::array<int32_t, 3>;

// Faces over points. Points are numbered by first use.
class Writer {
public:
    void face(const std::array<Point, 4>& corners) {
        faces += 'f';
        for (auto& corner : corners) add(faces, number(corner));
        faces += '\n';
    }

    void write() const {
        std::fwrite(vertices.data(), 1, vertices.size(), stdout);
        std::fwrite(faces.data(), 1, faces.size(), stdout);
    }

private:
    std::string vertices, faces;
    std::unordered_map<uint64_t, uint32_t> numbers;

    static void add(std::string& text, int64_t n) {
        char digits[24];
        text += ' ';
        text.append(digits, std::to_chars(digits, digits + 24, n).ptr - digits);
    }

    uint32_t number(const Point& point) {
        uint64_t key = 0;
        for (int32_t n : point) key = key << 21 | uint32_t(n + (1 << 20));
        auto [entry, is_new] = numbers.try_emplace(key, uint32_t(numbers.size() + 1));
        if (is_new) {
            vertices += 'v';
            for (int32_t n : point) add(vertices, n);
            vertices += '\n';
        }
        return entry->second;
    }
};

static void grid(Writer& out, int32_t width, int32_t height, bool has_holes) {
    for (int32_t y = 0; y < height; ++y)
        for (int32_t x = 0; x < width; ++x)
            if (!has_holes || x % 64 != 32 || y % 64 != 32)
                out.face({Point{x, y, 0}, {x + 1, y, 0}, {x + 1, y + 1, 0}, {x, y + 1, 0}});
}

static void cube(Writer& out, int32_t n) {
    // A corner and two directions for each side, so that all faces look outward.
    const std::array<std::array<Point, 3>, 6> sides = {{{{{0, 0, 0}, {0, 1, 0}, {1, 0, 0}}},
                                                        {{{0, 0, 1}, {1, 0, 0}, {0, 1, 0}}},
                                                        {{{0, 0, 0}, {1, 0, 0}, {0, 0, 1}}},
                                                        {{{0, 1, 0}, {0, 0, 1}, {1, 0, 0}}},
                                                        {{{0, 0, 0}, {0, 0, 1}, {0, 1, 0}}},
                                                        {{{1, 0, 0}, {0, 1, 0}, {0, 0, 1}}}}};
    for (auto& [start, right, up] : sides)
        for (int32_t j = 0; j < n; ++j)
            for (int32_t i = 0; i < n; ++i) {
                auto at = [&](int32_t a, int32_t b) {
                    Point point;
                    for (int k = 0; k < 3; ++k) point[k] = n * start[k] + a * right[k] + b * up[k];
                    return point;
                };
                out.face({at(i, j), at(i + 1, j), at(i + 1, j + 1), at(i, j + 1)});
            }
}

// Heights that go up or down by one at each step, by a small generator of random numbers.
static std::vector<int32_t> walk(int32_t steps, uint32_t state) {
    std::vector<int32_t> heights(1);
    for (int32_t i = 1; i < steps; ++i) {
        state = 1103515245 * state + 12345;
        heights.push_back(heights.back() + ((state >> 16) % 2 ? 1 : -1));
    }
    return heights;
}

// Heights are sums of two walks, so no two columns touch along an edge alone, and the terrain is a manifold.
static void voxels(Writer& out, int32_t n) {
    std::vector<int32_t> along_x = walk(n, 1), along_y = walk(n, 2);
    for (int32_t y = 0; y < n; ++y)
        for (int32_t x = 0; x < n; ++x) {
            int32_t z = along_x[x] + along_y[y];
            out.face({Point{x, y, z}, {x + 1, y, z}, {x + 1, y + 1, z}, {x, y + 1, z}});
            if (x + 1 < n) {
                int32_t to = along_x[x + 1] + along_y[y];
                out.face({Point{x + 1, y, z}, {x + 1, y, to}, {x + 1, y + 1, to}, {x + 1, y + 1, z}});
            }
            if (y + 1 < n) {
                int32_t to = along_x[x] + along_y[y + 1];
                out.face({Point{x + 1, y + 1, z}, {x + 1, y + 1, to}, {x, y + 1, to}, {x, y + 1, z}});
            }
        }
}

// The next number below a bound, by Knuth's generator of 64 bits.
static int32_t draw(uint64_t& state, int32_t bound) {
    state = 6364136223846793005 * state + 1442695040888963407;
    return int32_t((state >> 33) % uint64_t(bound));
}

static void plate(Writer& out, int32_t n) {
    std::vector<char> is_hole(size_t(n) * n);
    auto any = [&](int32_t left, int32_t low, int32_t right, int32_t high) {
        for (int32_t y = low; y < high; ++y)
            for (int32_t x = left; x < right; ++x)
                if (is_hole[size_t(y) * n + x]) return true;
        return false;
    };
    uint64_t state = 1;
    size_t left_out = 0;
    for (size_t tries = 0; n >= 8 && left_out * 7 < is_hole.size() && tries < is_hole.size(); ++tries) {
        int32_t width = 1 + draw(state, 4), height = 1 + draw(state, 4);
        int32_t x = 1 + draw(state, n - width - 1), y = 1 + draw(state, n - height - 1);
        if (any(x - 1, y - 1, x + width + 1, y + height + 1)) continue;
        for (int32_t j = 0; j < height; ++j)
            for (int32_t i = 0; i < width; ++i) is_hole[size_t(y + j) * n + x + i] = 1;
        left_out += size_t(width) * height;
    }
    for (int32_t y = 0; y < n; ++y)
        for (int32_t x = 0; x < n; ++x)
            if (!is_hole[size_t(y) * n + x])
                out.face({Point{x, y, 0}, {x + 1, y, 0}, {x + 1, y + 1, 0}, {x, y + 1, 0}});
}

static void steps(Writer& out, int32_t n) {
    const std::array<int32_t, 4> heights = {1, 4, 3, 2};
    for (int32_t k = 0; k < n; ++k)
        for (int32_t i = 0; i < 8; ++i)
            for (int32_t j = 0; j < heights[i / 2]; ++j) {
                int32_t x = 10 * (k % 1000) + i, y = 6 * (k / 1000) + j;
                out.face({Point{x, y, 0}, {x + 1, y, 0}, {x + 1, y + 1, 0}, {x, y + 1, 0}});
            }
}

static void torus(Writer& out, int32_t n, int32_t one_in) {
    const double turn = 2 * std::acos(-1.0) / n, small = 100 / turn, large = 2 * small;
    auto at = [&](int32_t i, int32_t j) {
        double radius = large + small * std::cos(turn * j);
        return Point{int32_t(std::lround(radius * std::cos(turn * i))),
                     int32_t(std::lround(radius * std::sin(turn * i))), int32_t(std::lround(small * std::sin(turn * j)))};
    };
    std::vector<char> is_written(size_t(n) * n);
    uint64_t state = 1;
    // Each try takes two neighbours; half of the turned edges lean to either side.
    for (int64_t left = int64_t(n) * n / (2 * one_in); one_in > 0 && left > 0; --left) {
        int32_t i = draw(state, n), j = draw(state, n);
        size_t one = size_t(i) * n + j, other = size_t((i + 1) % n) * n + j;
        if (is_written[one] || is_written[other]) continue;
        is_written[one] = is_written[other] = 1;
        const std::array<Point, 6> sides = {at(i, j), at(i + 1, j), at(i + 2, j), at(i + 2, j + 1), at(i + 1, j + 1), at(i, j + 1)};
        int first = draw(state, 2) ? 0 : 5;
        for (int from : {first, (first + 3) % 6})
            out.face({sides[from], sides[(from + 1) % 6], sides[(from + 2) % 6], sides[(from + 3) % 6]});
    }
    for (int32_t i = 0; i < n; ++i)
        for (int32_t j = 0; j < n; ++j)
            if (!is_written[size_t(i) * n + j]) out.face({at(i, j), at(i + 1, j), at(i + 1, j + 1), at(i, j + 1)});
}

// Heights of hills, raised until no two columns touch along an edge alone.
static std::vector<int32_t> hill_heights(int32_t n) {
    std::vector<int32_t> heights(size_t(n) * n);
    uint64_t state = 1;
    auto wave = [&] { return draw(state, 601) / 1000.0 - 0.3; };
    for (int k = 0; k < 12; ++k) {
        double along_x = wave(), along_y = wave(), shift = draw(state, 6283) / 1000.0;
        for (int32_t y = 0; y < n; ++y)
            for (int32_t x = 0; x < n; ++x)
                heights[size_t(y) * n + x] += int32_t(std::lround(1000 * std::sin(along_x * x + along_y * y + shift)));
    }
    for (int32_t& height : heights) height = int32_t(std::lround(6.0 / std::sqrt(12.0) * height / 1000));
    for (bool is_mended = true; is_mended;) {
        is_mended = false;
        for (int32_t y = 0; y + 1 < n; ++y)
            for (int32_t x = 0; x + 1 < n; ++x) {
                int32_t &a = heights[size_t(y) * n + x], &b = heights[size_t(y) * n + x + 1];
                int32_t &c = heights[size_t(y + 1) * n + x + 1], &d = heights[size_t(y + 1) * n + x];
                if (std::min(a, c) > std::max(b, d)) b = std::min(a, c), is_mended = true;
                else if (std::min(b, d) > std::max(a, c)) a = std::min(b, d), is_mended = true;
            }
    }
    return heights;
}

static void hills(Writer& out, int32_t n) {
    std::vector<int32_t> heights = hill_heights(n);
    auto height = [&](int32_t x, int32_t y) { return heights[size_t(y) * n + x]; };
    for (int32_t y = 0; y < n; ++y)
        for (int32_t x = 0; x < n; ++x) {
            int32_t z = height(x, y);
            out.face({Point{x, y, z}, {x + 1, y, z}, {x + 1, y + 1, z}, {x, y + 1, z}});
            for (int32_t to = x + 1 < n ? height(x + 1, y) : z, from = z; from != to;) {
                int32_t next = from + (to > from ? 1 : -1);
                out.face({Point{x + 1, y, from}, {x + 1, y, next}, {x + 1, y + 1, next}, {x + 1, y + 1, from}});
                from = next;
            }
            for (int32_t to = y + 1 < n ? height(x, y + 1) : z, from = z; from != to;) {
                int32_t next = from + (to > from ? 1 : -1);
                out.face({Point{x + 1, y + 1, from}, {x + 1, y + 1, next}, {x, y + 1, next}, {x, y + 1, from}});
                from = next;
            }
        }
}

static void comb(Writer& out, int32_t n) {
    for (int32_t x = 0; x < n; ++x)
        for (int32_t y = 0; y < 2 - x % 2; ++y)
            out.face({Point{x, y, 0}, {x + 1, y, 0}, {x + 1, y + 1, 0}, {x, y + 1, 0}});
}

static void fan(Writer& out, int32_t n) {
    auto at = [&](int32_t step, double radius) {
        double angle = std::acos(-1.0) * step / n;
        return Point{int32_t(std::lround(radius * std::cos(angle))), int32_t(std::lround(radius * std::sin(angle))), 0};
    };
    for (int32_t k = 0; k < n; ++k)
        out.face({Point{0, 0, 0}, at(2 * k, 900000), at(2 * k + 1, 1000000), at(2 * (k + 1) % (2 * n), 900000)});
}

int main(int argc, char** argv) {
    std::string_view what = argc > 1 ? argv[1] : "";
    int32_t first = argc > 2 ? std::atoi(argv[2]) : 0, second = argc > 3 ? std::atoi(argv[3]) : first;
    Writer out;
    if (what == "grid" || what == "holes") grid(out, first, second, what == "holes");
    else if (what == "cube") cube(out, first);
    else if (what == "voxels") voxels(out, first);
    else if (what == "plate") plate(out, first);
    else if (what == "steps") steps(out, first);
    else if (what == "torus") torus(out, first, second);
    else if (what == "hills") hills(out, first);
    else if (what == "comb") comb(out, first);
    else if (what == "fan") fan(out, first);
    else return std::fprintf(stderr, "usage: meshes WORD NUMBER.. (see the head of meshes.cpp)\n"), 2;
    out.write();
    return 0;
}
