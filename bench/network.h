// Reads a network's file for the solvers to compare with: modules numbered as they come, and imports between numbers.
// It looks at no form of a line.
#include <cstdint>
#include <cstdio>
#include <cstdlib>
#include <string>
#include <string_view>
#include <unordered_map>
#include <vector>

struct Import { int from, to; uint64_t weight; };

struct Network {
    std::string text;
    std::vector<std::string_view> names;
    std::unordered_map<std::string_view, int> numbers;
    std::vector<Import> imports;

    int number(std::string_view name) {
        auto found = numbers.emplace(name, names.size());
        if (found.second) names.push_back(name);
        return found.first->second;
    }

    void read(const char *path) {
        FILE *file = fopen(path, "rb");
        if (!file) exit(3);
        char part[1 << 16];
        while (size_t got = fread(part, 1, sizeof part, file)) text.append(part, got);
        fclose(file);
        size_t at = 0;
        auto word = [&]() {
            size_t start = at;
            while (at < text.size() && text[at] != ' ' && text[at] != '\n') at++;
            return std::string_view(text).substr(start, at++ - start);
        };
        while (at < text.size()) {
            std::string_view kind = word();
            if (kind == "module") number(word());
            if (kind != "import") continue;
            int from = number(word()), to = number(word());
            uint64_t weight = 0;
            for (char digit : word()) weight = 10 * weight + (digit - '0');
            imports.push_back({from, to, weight});
        }
    }
};
