// The plain C++ peer of `quadq tidy`: reads an OBJ of quads, checks that it is a manifold, prints it canonically.
#include "soup.hpp"

static char* print_micro(char* at, int64_t n) {
    if (n < 0) *at++ = '-', n = -n;
    at = std::to_chars(at, at + 20, n / 1000000).ptr;
    int64_t rest = n % 1000000;
    if (rest == 0) return at;
    *at++ = '.';
    int digits = 6;
    while (rest % 10 == 0) rest /= 10, --digits;
    for (int i = digits - 1; i >= 0; --i) at[i] = char('0' + rest % 10), rest /= 10;
    return at + digits;
}

static std::string print(const std::vector<Place>& places, const std::vector<Face>& faces) {
    std::string text;
    char line[128];
    for (auto& place : places) {
        char* at = line;
        *at++ = 'v';
        for (int64_t n : place) *at++ = ' ', at = print_micro(at, n);
        *at++ = '\n';
        text.append(line, at - line);
    }
    for (auto& face : faces) {
        char* at = line;
        *at++ = 'f';
        for (uint32_t v : face) *at++ = ' ', at = std::to_chars(at, at + 12, v + 1).ptr;
        *at++ = '\n';
        text.append(line, at - line);
    }
    return text;
}

int main(int argc, char**) {
    std::vector<Place> places;
    std::vector<Face> faces;
    {
        std::string text = read_all();
        parse(text, places, faces);
    }
    drop_unused(places, faces);
    if (argc == 1) link(faces, places.size());
    std::string text = print(places, faces);
    return std::fwrite(text.data(), 1, text.size(), stdout) == text.size() ? 0 : 1;
}
