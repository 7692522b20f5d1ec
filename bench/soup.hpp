// What the peers of `quadq tidy` and `quadq graph` share: an OBJ of quads is read and checked to be a manifold.
// Of `v` lines plain decimals are known, of `f` lines the first index of each corner; other refusals than by status 1
// are not made.
#pragma once
#include <algorithm>
#include <array>
#include <charconv>
#include <cstdint>
#include <cstdio>
#include <cstdlib>
#include <string>
#include <utility>
#include <vector>

using Place = std::array<int64_t, 3>;
using Face = std::array<uint32_t, 4>;

[[noreturn]] static void fail(const char* why) {
    std::fprintf(stderr, "%s\n", why);
    std::exit(1);
}

static std::string read_all() {
    std::string text;
    std::array<char, 1 << 16> buffer;
    while (size_t got = std::fread(buffer.data(), 1, buffer.size(), stdin)) text.append(buffer.data(), got);
    return text;
}

// A decimal as whole millionths, rounded half away from zero.
static int64_t millionths(const char*& at, const char* end) {
    bool negative = at < end && *at == '-';
    if (at < end && (*at == '-' || *at == '+')) ++at;
    int64_t whole = 0, rest = 0, scale = 1000000;
    while (at < end && *at >= '0' && *at <= '9') whole = 10 * whole + (*at++ - '0');
    if (at < end && *at == '.') {
        ++at;
        while (at < end && *at >= '0' && *at <= '9') {
            if (scale > 1) {
                scale /= 10;
                rest += (*at - '0') * scale;
            } else if (scale == 1) {
                rest += *at >= '5';
                scale = 0;
            }
            ++at;
        }
    }
    int64_t n = whole * 1000000 + rest;
    return negative ? -n : n;
}

static void skip_blanks(const char*& at, const char* end) {
    while (at < end && (*at == ' ' || *at == '\t')) ++at;
}

// A line that ends in a backslash goes on: both become blanks.
static void join_lines(std::string& text) {
    for (size_t at = text.find('\\'); at != std::string::npos; at = text.find('\\', at + 1)) {
        size_t end = at + 1;
        if (end < text.size() && text[end] == '\r') ++end;
        if (end < text.size() && text[end] == '\n') text.replace(at, end + 1 - at, end + 1 - at, ' ');
    }
}

static void parse(std::string& text, std::vector<Place>& places, std::vector<Face>& faces) {
    join_lines(text);
    const char* at = text.data();
    const char* end = at + text.size();
    while (at < end) {
        skip_blanks(at, end);
        if (end - at > 2 && at[0] == 'v' && (at[1] == ' ' || at[1] == '\t')) {
            ++at;
            Place place;
            for (auto& number : place) {
                skip_blanks(at, end);
                number = millionths(at, end);
            }
            places.push_back(place);
        } else if (end - at > 2 && at[0] == 'f' && (at[1] == ' ' || at[1] == '\t')) {
            ++at;
            Face face;
            for (auto& corner : face) {
                skip_blanks(at, end);
                uint32_t k = 0;
                bool counts_back = at < end && *at == '-';
                if (at < end && (*at == '-' || *at == '+')) ++at;
                while (at < end && *at >= '0' && *at <= '9') k = 10 * k + (*at++ - '0');
                if (k == 0 || (counts_back && k > places.size())) fail("bad index");
                corner = counts_back ? uint32_t(places.size()) - k : k - 1;
                while (at < end && *at != ' ' && *at != '\t' && *at != '\n') ++at;
            }
            faces.push_back(face);
        }
        while (at < end && *at != '\n') ++at;
        ++at;
    }
}

// Darts by the vertex that they leave, in rising order, as offsets into one table.
struct Fans {
    std::vector<uint32_t> first, darts;
};

static Fans gather(const std::vector<Face>& faces, size_t vertices) {
    Fans fans{std::vector<uint32_t>(vertices + 1), std::vector<uint32_t>(4 * faces.size())};
    for (auto& face : faces)
        for (uint32_t v : face) ++fans.first[v + 1];
    for (size_t v = 0; v < vertices; ++v) fans.first[v + 1] += fans.first[v];
    std::vector<uint32_t> at(fans.first.begin(), fans.first.end() - 1);
    for (uint32_t d = 0; d < 4 * faces.size(); ++d) fans.darts[at[faces[d / 4][d % 4]]++] = d;
    return fans;
}

static uint32_t next(uint32_t d) { return d % 4 == 3 ? d - 3 : d + 1; }
static uint32_t prev(uint32_t d) { return d % 4 == 0 ? d + 3 : d - 1; }

// The darts of each vertex, and for each dart its twin, or itself at the boundary.
struct Links {
    Fans fans;
    std::vector<uint32_t> twins;
};

// The links of the faces. Fails where they are no manifold.
static Links link(const std::vector<Face>& faces, size_t vertices) {
    auto from = [&](uint32_t d) { return faces[d / 4][d % 4]; };
    auto to = [&](uint32_t d) { return from(next(d)); };
    for (auto& f : faces)
        for (int i = 1; i < 4; ++i)
            if (std::find(f.begin(), f.begin() + i, f[i]) != f.begin() + i) fail("repeated");
    Fans fans = gather(faces, vertices);
    std::vector<uint32_t> by_end(vertices), twins(4 * faces.size());
    for (uint32_t v = 0; v < vertices; ++v) {
        for (uint32_t i = fans.first[v]; i < fans.first[v + 1]; ++i) {
            uint32_t d = fans.darts[i], earlier = by_end[to(d)];
            if (earlier < d && from(earlier) == v && to(earlier) == to(d)) fail("edge twice");
            by_end[to(d)] = d;
        }
        for (uint32_t i = fans.first[v]; i < fans.first[v + 1]; ++i) {
            uint32_t e = prev(fans.darts[i]), leaving = by_end[from(e)];
            twins[e] = from(leaving) == v && to(leaving) == from(e) ? leaving : e;
        }
    }
    for (uint32_t v = 0; v < vertices; ++v) {
        uint32_t count = fans.first[v + 1] - fans.first[v];
        if (count == 0) continue;
        uint32_t start = fans.darts[fans.first[v]], met = 1, at = start;
        while (twins[prev(at)] != prev(at) && twins[prev(at)] != start) at = twins[prev(at)], ++met;
        if (twins[prev(at)] == prev(at))
            for (at = start; twins[at] != at; ++met) at = next(twins[at]);
        if (met != count) fail("two fans");
    }
    return {std::move(fans), std::move(twins)};
}

// The used places in order, and the faces over them.
static void drop_unused(std::vector<Place>& places, std::vector<Face>& faces) {
    std::vector<uint32_t> number(places.size());
    for (auto& face : faces)
        for (uint32_t v : face) {
            if (v >= places.size()) fail("late index");
            number[v] = 1;
        }
    uint32_t kept = 0;
    for (size_t v = 0; v < places.size(); ++v)
        if (number[v]) places[kept] = places[v], number[v] = kept++;
    places.resize(kept);
    for (auto& face : faces)
        for (uint32_t& v : face) v = number[v];
}

