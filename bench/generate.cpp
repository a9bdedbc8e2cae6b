// Writes a network of a shape, the same for the same words, and prints the two modules to be cut apart.
// Usage: generate SHAPE SEED MODULES IMPORTS NET, with at most that many imports
// The modules have numbers, and import only higher ones, so there is no cycle. The first and the last are to be cut apart;
// the imports near them are heavy, so that the cheapest cut lies between.
#include <algorithm>
#include <cmath>
#include <cstdint>
#include <cstdio>
#include <cstdlib>
#include <map>
#include <set>
#include <string>
#include <utility>
#include <vector>

struct Import { int from, to; uint64_t weight; };

static int modules, wanted, last, tries;
static std::set<std::pair<int, int>> seen;
static std::vector<Import> imports;
static uint64_t state;

static uint64_t random_below(uint64_t limit) {
    state ^= state << 13, state ^= state >> 7, state ^= state << 17;
    return state % limit;
}

// Whether there are enough imports; small networks have no room for as many.
static bool full() { return (int)imports.size() >= wanted || ++tries > 100 * wanted; }
static uint64_t light() { return 1 + random_below(100); }
static uint64_t heavy() { return 1000 + random_below(100); }

static void add(int from, int to, uint64_t weight) {
    if (from < to && to <= last && (int)imports.size() < wanted && seen.insert({from, to}).second)
        imports.push_back({from, to, weight});
}

// Imports of any module to one of the next sixteenth; a share of the weights, in parts of 8, is zero.
static void bands(uint64_t zeros) {
    auto weight = [&](uint64_t most) { return random_below(8) < zeros ? 0 : most; };
    int ends = std::min(modules / 16, wanted / 4);
    for (int k = 1; k <= ends; k++) add(0, k, weight(heavy())), add(last - k, last, weight(heavy()));
    while (!full()) {
        int from = random_below(last), span = 1 + random_below(std::min(last - from, modules / 16 + 1));
        add(from, from + span, weight(random_below(100)));
    }
}

static void banded() { bands(0); }
static void zeros() { bands(5); }

// Layers, each module importing from the next one and the one after it.
static void layered() {
    int layers = std::max(3, (int)(std::sqrt(modules) / 2)), size = (last - 1) / layers;
    auto member = [&](int layer) { return 1 + layer * size + (int)random_below(size); };
    for (int k = 1; k <= size; k++) add(0, k, heavy());
    for (int k = 1 + (layers - 1) * size; k < last; k++) add(k, last, heavy());
    for (int k = 1; k <= (layers - 1) * size; k++) add(k, member((k - 1) / size + 1), light());
    while (!full()) {
        int from = 1 + random_below((layers - 1) * size), next = (from - 1) / size + 1;
        add(from, member(std::min(layers - 1, next + (random_below(4) == 0))), light());
    }
}

// The more often a module is imported, the more often it is imported again; a sixteenth of them imports the last one.
static void powerlaw() {
    std::vector<int> urn;
    int base = std::max(2, modules / 16);
    for (int from = last - 1; from > 0; from--) {
        if (from >= last - base) add(from, last, heavy());
        for (int k = 0; k < wanted / modules && !urn.empty(); k++) {
            int to = urn[random_below(urn.size())];
            add(from, to, light());
            urn.push_back(to);
        }
        urn.push_back(from);
    }
    for (int k = 0; k < modules / 8; k++) add(0, 1 + random_below(last - 1), heavy());
}

// A chain of all modules with short ways past some: the chains have many imports.
static void chain() {
    auto weight = [&](int from) { return from < modules / 16 || from > last - modules / 16 ? 20 * light() : light(); };
    for (int from = 0; from < last; from++) add(from, from + 1, weight(from));
    while (!full()) {
        int from = random_below(last);
        add(from, from + 2 + random_below(15), weight(from));
    }
}

// Two broad layers: who sends how much to whom is the whole question.
static void wide() {
    int half = last / 2;
    for (int k = 1; k <= half; k++) add(0, k, 4 * light());
    for (int k = half + 1; k < last; k++) add(k, last, 4 * light());
    while (!full()) add(1 + random_below(half), half + 1 + random_below(last - half - 1), light());
}

// Columns of modules, each importing the one below it and some near it in the next column.
static void grid() {
    int rows = std::sqrt(last - 1);
    for (int k = 1; k <= rows; k++) add(0, k, heavy()), add(last - k, last, heavy());
    for (int k = 1; k < last; k++) if (k % rows != 0) add(k, k + 1, light());
    for (int step : {0, 1, -1, 2, -2, 3, -3})
        for (int k = 1; k < last; k++) {
            int row = (k - 1) % rows + step;
            if (row >= 0 && row < rows && k + rows + step < last) add(k, k + rows + step, light());
        }
}

// Six letters, another name for each number below 512,000; their order says nothing of that of the numbers.
static std::string name(int module) {
    int rest = module * 331337ll % 512000;
    std::string text;
    for (int k = 0; k < 3; k++, rest /= 80) text += "bdfghklmnprstvwz"[rest % 16], text += "aeiou"[rest / 16 % 5];
    text[0] += 'A' - 'a';
    return text;
}

static bool has_chain() {
    std::vector<std::vector<int>> imported(modules);
    for (auto &i : imports) imported[i.from].push_back(i.to);
    std::vector<char> found(modules);
    found[0] = 1;
    for (int m = 0; m < last; m++)
        if (found[m])
            for (int to : imported[m]) found[to] = 1;
    return found[last];
}

int main(int count, char **words) {
    std::map<std::string, void (*)()> shapes = {{"banded", banded}, {"layered", layered}, {"powerlaw", powerlaw},
        {"chain", chain}, {"wide", wide}, {"grid", grid}, {"zeros", zeros}};
    if (count != 6 || !shapes.count(words[1])) return 2;
    state = strtoull(words[2], nullptr, 10) * 2654435761u + 88172645463325252ull;
    modules = atoi(words[3]), wanted = atoi(words[4]), last = modules - 1;
    if (modules < 64 || modules > 8192 || wanted < modules || wanted > 65536) return 2;
    shapes[words[1]]();
    if (!has_chain()) return fprintf(stderr, "no chain\n"), 1;
    for (size_t k = imports.size(); k > 1; k--) std::swap(imports[k - 1], imports[random_below(k)]);
    FILE *file = fopen(words[5], "w");
    if (!file) return 3;
    for (int m = last; m >= 0; m--) fprintf(file, "module %s\n", name(m).c_str());
    for (auto &i : imports)
        fprintf(file, "import %s %s %llu\n", name(i.from).c_str(), name(i.to).c_str(), (unsigned long long)i.weight);
    fclose(file);
    printf("%s %s\n", name(0).c_str(), name(last).c_str());
    return 0;
}
