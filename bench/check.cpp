// A plain checker of reports, to compare with: it reads the same two files and says the same verdicts, without names.
// It looks at no form and no order of lines.
// Usage: check NET REPORT
#include <algorithm>
#include <cstdint>
#include <cstdio>
#include <fstream>
#include <iostream>
#include <queue>
#include <sstream>
#include <string>
#include <unordered_map>
#include <vector>

struct Import { int from, to; uint64_t amount; };

static std::string read_file(const char *path) {
    std::ifstream file(path, std::ios::binary);
    std::stringstream text;
    text << file.rdbuf();
    return text.str();
}

static std::vector<std::string> fields_of(const std::string &line) {
    std::vector<std::string> fields;
    size_t start = 0, at;
    while ((at = line.find(' ', start)) != std::string::npos) fields.push_back(line.substr(start, at - start)), start = at + 1;
    fields.push_back(line.substr(start));
    return fields;
}

static bool before(const Import &i, const Import &j) { return i.from != j.from ? i.from < j.from : i.to < j.to; }

int main(int count, char **words) {
    if (count != 3) return 2;
    std::unordered_map<std::string, int> numbers;
    std::vector<std::string> names;
    std::vector<Import> imports;
    auto number = [&](const std::string &name) {
        auto found = numbers.emplace(name, names.size());
        if (found.second) names.push_back(name);
        return found.first->second;
    };
    std::string text = read_file(words[1]), line;
    std::istringstream lines(text);
    while (std::getline(lines, line)) {
        auto fields = fields_of(line);
        if (fields.size() == 2) number(fields[1]);
        if (fields.size() == 4) {
            int from = number(fields[1]), to = number(fields[2]);
            imports.push_back({from, to, std::stoull(fields[3])});
        }
    }
    int modules = names.size();
    std::vector<int> order(modules), rank(modules);
    for (int m = 0; m < modules; m++) order[m] = m;
    std::sort(order.begin(), order.end(), [&](int m, int n) { return names[m] < names[n]; });
    for (int k = 0; k < modules; k++) rank[order[k]] = k;
    for (auto &i : imports) i.from = rank[i.from], i.to = rank[i.to];
    std::sort(imports.begin(), imports.end(), before);

    std::vector<int> starts(modules + 1), left(modules);
    for (auto &i : imports) starts[i.from + 1]++, left[i.to]++;
    for (int m = 0; m < modules; m++) starts[m + 1] += starts[m];
    std::queue<int> free;
    for (int m = 0; m < modules; m++) if (!left[m]) free.push(m);
    int done = 0;
    for (; !free.empty(); done++) {
        int m = free.front();
        free.pop();
        for (int i = starts[m]; i < starts[m + 1]; i++) if (--left[imports[i].to] == 0) free.push(imports[i].to);
    }
    if (done < modules) return puts("cycle"), 1;

    std::string report = read_file(words[2]);
    std::istringstream rows(report);
    std::vector<Import> printed, flow;
    int from = 0, to = 0;
    uint64_t weight = 0;
    while (std::getline(rows, line)) {
        auto fields = fields_of(line);
        auto ranked = [&](const std::string &name) { return rank[numbers.at(name)]; };
        if (fields[0] == "cut") from = ranked(fields[1]), to = ranked(fields[2]);
        if (fields[0] == "weight") weight = std::stoull(fields[1]);
        if (fields[0] == "remove") printed.push_back({ranked(fields[1]), ranked(fields[2]), std::stoull(fields[3])});
        if (fields[0] == "flow") flow.push_back({ranked(fields[1]), ranked(fields[2]), std::stoull(fields[3])});
    }
    std::vector<char> removed(imports.size());
    std::vector<uint64_t> amounts(imports.size());
    uint64_t sum = 0;
    bool wrong = false;
    for (auto &p : printed) {
        auto at = std::lower_bound(imports.begin(), imports.end(), p, before);
        if (at == imports.end() || at->from != p.from || at->to != p.to) return puts("no NoSuchImport"), 5;
        removed[at - imports.begin()] = 1;
        wrong |= at->amount != p.amount;
        sum += p.amount;
    }
    for (auto &f : flow) {
        auto at = std::lower_bound(imports.begin(), imports.end(), f, before);
        if (at == imports.end() || at->from != f.from || at->to != f.to) return puts("no NoSuchImport"), 5;
        amounts[at - imports.begin()] = f.amount;
    }
    std::vector<char> seen(modules);
    std::queue<int> found;
    seen[from] = 1, found.push(from);
    while (!found.empty()) {
        int m = found.front();
        found.pop();
        for (int i = starts[m]; i < starts[m + 1]; i++)
            if (!removed[i] && !seen[imports[i].to]) seen[imports[i].to] = 1, found.push(imports[i].to);
    }
    if (seen[to]) return puts("no StillChain"), 5;
    if (wrong || sum != weight) return puts("no WrongWeight"), 5;
    std::vector<uint64_t> into(modules), out(modules);
    for (size_t i = 0; i < imports.size(); i++) {
        if (amounts[i] > imports[i].amount) return puts("no OverWeight"), 5;
        into[imports[i].to] += amounts[i], out[imports[i].from] += amounts[i];
    }
    for (int m = 0; m < modules; m++) if (m != from && m != to && into[m] != out[m]) return puts("no NotKept"), 5;
    if (into[from] > out[from] || out[from] - into[from] != weight) return puts("no WrongValue"), 5;
    return puts("yes"), 0;
}
