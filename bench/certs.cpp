// The work of `qm_bench read` and `qm_bench write` in plain C++, written from the description of the certificate's
// lines, with the same words and the same output.
#include <charconv>
#include <cstdint>
#include <cstdio>
#include <cstdlib>
#include <cstring>
#include <optional>
#include <string>
#include <string_view>
#include <vector>

struct Cert {
    std::vector<uint64_t> x;
    std::vector<int64_t> y, z;
    std::vector<uint32_t> up_y, up_z;
};

// A number without leading zeros that is at most the limit.
static std::optional<uint64_t> number(std::string_view word, uint64_t limit) {
    if (word.empty() || (word.size() > 1 && word[0] == '0')) return {};
    uint64_t value = 0;
    auto [end, error] = std::from_chars(word.data(), word.data() + word.size(), value);
    if (error != std::errc() || end != word.data() + word.size() || value > limit) return {};
    return value;
}

static bool read_dual(std::string_view rest, std::vector<int64_t> &numbers, std::vector<uint32_t> &ups) {
    size_t space = rest.find(' ');
    if (space == std::string_view::npos) return false;
    std::string_view word = rest.substr(0, space);
    bool minus = !word.empty() && word[0] == '-';
    auto value = number(word.substr(minus), 999999999999999999);
    auto up = number(rest.substr(space + 1), UINT32_MAX);
    if (!value || !up || (minus && *value == 0)) return false;
    numbers.push_back(minus ? -int64_t(*value) : int64_t(*value));
    ups.push_back(uint32_t(*up));
    return true;
}

static bool read_line(std::string_view line, Cert &cert) {
    if (line.size() < 3 || line[2] != ' ') return false;
    std::string_view rest = line.substr(3);
    if (line[1] == 'x') {
        auto n = number(rest, 1000000000000);
        if (!n) return false;
        cert.x.push_back(*n);
        return true;
    }
    if (line[1] == 'y') return read_dual(rest, cert.y, cert.up_y);
    if (line[1] == 's') return read_dual(rest, cert.z, cert.up_z);
    return false;
}

static std::optional<Cert> read_cert(const std::vector<std::string_view> &lines, size_t first) {
    Cert cert;
    for (size_t i = first + 1; i < lines.size(); i++) {
        if (!lines[i].empty() && lines[i][0] == '#' && !read_line(lines[i], cert)) return {};
    }
    return cert;
}

template <class Number> static void put(std::string &text, Number n) {
    char room[24];
    auto [end, error] = std::to_chars(room, room + sizeof room, n);
    text.append(room, end);
}

static void put_dual(std::string &text, const char *mark, int64_t n, uint32_t up) {
    text += mark;
    put(text, n);
    text += ' ';
    put(text, up);
    text += '\n';
}

static std::string cert_text(const Cert &cert) {
    std::string text;
    for (uint64_t n : cert.x) {
        text += "#x ";
        put(text, n);
        text += '\n';
    }
    for (size_t i = 0; i < cert.y.size(); i++) put_dual(text, "#y ", cert.y[i], cert.up_y[i]);
    for (size_t i = 0; i < cert.z.size(); i++) put_dual(text, "#s ", cert.z[i], cert.up_z[i]);
    return text;
}

static std::string read_all() {
    std::string text;
    char room[65536];
    while (size_t n = fread(room, 1, sizeof room, stdin)) text.append(room, n);
    return text;
}

int main(int argc, char **argv) {
    std::string text = read_all();
    std::vector<std::string_view> lines;
    for (size_t at = 0; at < text.size();) {
        size_t end = text.find('\n', at);
        if (end == std::string::npos) end = text.size();
        lines.push_back(std::string_view(text).substr(at, end - at));
        at = end + 1;
    }
    size_t first = lines.size();
    while (first > 0 && lines[first - 1].substr(0, 15) != "#quadq 1 remesh") first--;
    if (first == 0) return 2;
    bool writes = argc > 1 && !strcmp(argv[1], "write");
    int times = argc > 2 ? atoi(argv[2]) : 1;
    auto cert = read_cert(lines, first - 1);
    for (int i = 1; !writes && i < times; i++) cert = read_cert(lines, first - 1);
    if (!cert) return 2;
    std::string written = cert_text(*cert);
    for (int i = 1; writes && i < times; i++) written = cert_text(*cert);
    printf("lengths %zu numbers %zu bytes %zu\n", cert->x.size(), cert->y.size() + cert->z.size(), written.size());
}
