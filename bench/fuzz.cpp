// Runs the program on seeded changes of the examples: fuzz PROGRAM EXAMPLES SEED RUNS
// or, with the seed 0, on every front of the examples and on each of them with one byte changed at each place.
// Each run has to end within two seconds, by itself, with a status and a line that docs/FORMATS.md names; a cut that was put
// has to pass the check, an index to be the same by one worker and by four, a symbol to be defined by its text where it is by its
// place, the first of a tree's faults to be what other commands tell, and an answer without some files to be that of a tree which
// doesn't have them. It stops at the first run that does otherwise, and keeps its folder. Works in a new folder below TMPDIR.
#include <algorithm>
#include <cerrno>
#include <csignal>
#include <cstdint>
#include <cstdio>
#include <cstdlib>
#include <cstring>
#include <fcntl.h>
#include <filesystem>
#include <fstream>
#include <iostream>
#include <iterator>
#include <map>
#include <random>
#include <regex>
#include <spawn.h>
#include <sstream>
#include <string>
#include <sys/resource.h>
#include <sys/time.h>
#include <sys/wait.h>
#include <unistd.h>
#include <vector>

extern char **environ;

namespace {

using Text = std::string;
using Words = std::vector<Text>;

constexpr int SECONDS = 2;

std::mt19937_64 random_bits;
Text program;
Text folder;
volatile sig_atomic_t is_late;
pid_t child;

size_t below(size_t bound) { return bound ? random_bits() % bound : 0; }

bool one_in(size_t times) { return below(times) == 0; }

template <typename List> const auto &one_of(const List &list) { return *std::next(std::begin(list), below(std::size(list))); }

Text read_file(const Text &path) {
    std::ifstream file(path, std::ios::binary);
    return {std::istreambuf_iterator<char>(file), {}};
}

void write_file(const Text &path, const Text &text) {
    std::ofstream file(path, std::ios::binary | std::ios::trunc);
    file.write(text.data(), static_cast<std::streamsize>(text.size()));
}

const Words TOKENS = {
    "ARRAY", "BEGIN", "BY", "CASE", "CONST", "DIV", "DO", "ELSE", "ELSIF", "END", "FALSE", "FOR", "IF", "IMPORT", "IN", "IS", "MOD", "MODULE", "NIL", "OF",
    "OR", "POINTER", "PROCEDURE", "RECORD", "REPEAT", "RETURN", "THEN", "TO", "TRUE", "TYPE", "UNTIL", "VAR", "WHILE", "(*", "*)", "(", ")", "[", "]", "{",
    "}", ":=", "^", "=", "#", "<=", ">=", "..", ":", ";", ",", ".", "|", "~", "&", "*", "\"", "1E5", "0FFH", "22X", "1.5E-3", "A", "B", "x",
    "SET", "import ", "module ", "set ", "folder ", "forbid ", "allow ", "# ", "cut ", "weight ", "remove ", "flow ", "blocked ", "price ", "pin ", "end\n", "\n", "\r\n", "\r", " ", "0", "1", "18446744073709551615",
    "18446744073709551616", "00", Text(1, '\0'), "\x80", "\xff", "\xef\xbb\xbf", "local ", "\x12\x7f", "\x08\xff\xff\xff\xff\xff\xff\xff\xff\x7f"};

// Changes a text at one to four places; other texts lend parts.
Text changed(Text text, const Words &others) {
    for (size_t left = 1 + below(4); left > 0; --left) {
        size_t at = below(text.size() + 1), length = std::min(text.size() - at, below(one_in(4) ? 200 : 12));
        switch (below(9)) {
        case 0:
            if (at < text.size()) text[at] = static_cast<char>(text[at] ^ (1 << below(8)));
            break;
        case 1:
            if (at < text.size()) text[at] = static_cast<char>(below(256));
            break;
        case 2:
            text.erase(at, length);
            break;
        case 3:
            text.insert(at, text.substr(below(text.size() + 1), length));
            break;
        case 4:
            text.insert(at, one_of(TOKENS));
            break;
        case 5:
            text.replace(at, length, one_of(TOKENS));
            break;
        case 6:
            if (one_in(4)) text.resize(at);
            break;
        case 7: {
            const Text &other = one_of(others);
            text.insert(at, other.substr(below(other.size() + 1), below(60)));
            break;
        }
        default: {
            Text token = one_of(TOKENS);
            for (size_t times = below(one_in(8) ? 300 : 4); times > 0; --times) text.insert(at, token);
        }
        }
    }
    return text;
}

struct Ended {
    int status;
    Text put, told;
};

void kill_late(int) {
    is_late = 1;
    kill(child, SIGKILL);
}

[[noreturn]] void stop(const Words &words, const Ended &ended, const Text &why) {
    std::cout << why << ", status " << ended.status << ", in " << folder << ": oscip";
    for (const Text &word : words) std::cout << " '" << word << "'";
    std::cout << "\nput: " << ended.put.substr(0, 300) << "\ntold: " << ended.told.substr(0, 300) << std::endl;
    exit(1);
}

Ended run(const Words &words) {
    std::vector<char *> list = {const_cast<char *>("oscip")};
    for (const Text &word : words) list.push_back(const_cast<char *>(word.c_str()));
    list.push_back(nullptr);
    posix_spawn_file_actions_t files;
    posix_spawn_file_actions_init(&files);
    posix_spawn_file_actions_addopen(&files, 0, "/dev/null", O_RDONLY, 0);
    posix_spawn_file_actions_addopen(&files, 1, "put", O_WRONLY | O_CREAT | O_TRUNC, 0600);
    posix_spawn_file_actions_addopen(&files, 2, "told", O_WRONLY | O_CREAT | O_TRUNC, 0600);
    is_late = 0;
    if (int why = posix_spawn(&child, program.c_str(), &files, nullptr, list.data(), environ)) {
        std::cout << "can't start " << program << ": " << strerror(why) << std::endl;
        exit(2);
    }
    posix_spawn_file_actions_destroy(&files);
    itimerval limit = {{0, 0}, {SECONDS, 0}}, none = {};
    setitimer(ITIMER_REAL, &limit, nullptr);
    int state = 0;
    while (waitpid(child, &state, 0) < 0 && errno == EINTR) {}
    setitimer(ITIMER_REAL, &none, nullptr);
    Ended ended = {WIFEXITED(state) ? WEXITSTATUS(state) : 128 + WTERMSIG(state), read_file("put"), read_file("told")};
    if (is_late) stop(words, ended, "late");
    return ended;
}

#define FILE_FAULT "[^\n]+:\\d+:\\d+: (BadByte|BadNumber|OpenString|OpenComment|TooLong|Syntax|EndName|TooDeep|Twice \\w+|TwiceField \\w+)"
#define IMPORTS_FAULT "TwoModules \\w+ \\S+ \\S+|TooMany|Cycle( \\w+)+"
#define ANY_FAULT "oscip: (" FILE_FAULT \
    "|\\d+: (BadLine|TwiceImport|TooMany|UnknownName|Order|NoSuchImport|TwicePrice|(SetIsModule|NoSuchModule|EmptySet|TwiceAllowed [^ \n]+) [^\n]*)" \
    "|" IMPORTS_FAULT "|WeightOverflow|PriceOverflow|NoEnd|NoDocument|SameModule|NoSuchModule [^]*" \
    "|(Truncated|LongVarint|Group|ZeroField|BadText) \\d+)\n"
const char *const FAULT = ANY_FAULT;
const char *const FAULTS = "((" FILE_FAULT ")\n)+|(" IMPORTS_FAULT ")\n";
const char *const LEFT_OUT = "(oscip: (" FILE_FAULT ")\n)+";
const char *const LEFT_OUT_AND_FAULT = "(oscip: (" FILE_FAULT ")\n)*" ANY_FAULT;
const char *const NO_FILE = "oscip: cannot (read|write)( [^]*)?\n";
const char *const LEFT_OUT_AND_NO_FILE = "(oscip: (" FILE_FAULT ")\n)*oscip: cannot (read|write)( [^]*)?\n";
const char *const REPORT = "cut \\w+ \\w+\n(weight \\d+\n(remove \\w+ \\w+ \\d+\n)*(flow \\w+ \\w+ [1-9]\\d*\n)*|blocked( \\w+)+\n)end\n";
const char *const PLACES = "([^]*:\\d+:\\d+-\\d+:\\d+\n)*";
const char *const NETWORK = "(module \\w+\n)*(import \\w+ \\w+ \\d+\n)*";
const char *const PATH_LINES = "(import \\w+ \\w+ \\d+\n)+";
const char *const DEFINED = "([^\n]*:\\d+:\\d+-\\d+:\\d+ [^\n]+\n)*";
const char *const BROKEN = "([^\n]+:\\d+:\\d+: no [1-9]\\d*( \\w+){2,}\n)*(stale [1-9]\\d* [^ \n]+ [^ \n]+\n)*";
const char *const NO = "no (StillChain|WrongWeight|WrongValue|(OverWeight|NoSuchImport|NotPinned) \\w+ \\w+|NotKept \\w+)\n";

// What standard output has to be after status 0.
const std::map<Text, const char *> ANSWERS = {
    {"cut", REPORT}, {"cut-net", REPORT}, {"check", "yes\n"}, {"check-net", "yes\n"}, {"dot", "digraph [^]*\\}\n"}, {"dot-net", "digraph [^]*\\}\n"},
    {"def", PLACES}, {"refs", PLACES}, {"crossings", PLACES}, {"net", NETWORK}, {"why", PATH_LINES}, {"why-net", PATH_LINES},
    {"modules", "(\\w+( [^\n]+)?\n)*"}, {"reach", "(\\w+\n)*"}, {"reach-net", "(\\w+\n)*"}, {"rules", "yes\n"}, {"faults", "yes\n"}, {"symbol", "([^\n]+\n)?"}, {"symbols", DEFINED}, {"unresolved", "([^]*:\\d+:\\d+ \\w+\n)*"}, {"index", "([0-9a-f]*\n)?"}};

bool is_like(const Text &text, const char *pattern) {
    static std::map<const char *, std::regex> made;
    auto found = made.find(pattern);
    if (found == made.end()) found = made.emplace(pattern, std::regex(pattern, std::regex::ECMAScript | std::regex::optimize)).first;
    // a long text would take the matcher too deep
    return text.size() > 4000 || std::regex_match(text, found->second);
}

// Whether standard output is that of a command that says no.
bool is_no(const Text &command, const Text &put) {
    if (command == "why" || command == "why-net") return put.empty();
    if (command == "faults") return is_like(put, FAULTS);
    if (command == "rules") return !put.empty() && is_like(put, BROKEN);
    return (command == "check" || command == "check-net") && is_like(put, NO);
}

bool is_documented(const Words &words, const Ended &ended) {
    const Text &put = ended.put, &told = ended.told, command = words.empty() ? "" : words[0];
    const bool leaves_out = std::find(words.begin(), words.end(), "--skip-faults") != words.end();
    auto answer = ANSWERS.find(command);
    const bool is_answer = answer == ANSWERS.end() || is_like(put, answer->second);
    switch (ended.status) {
    case 0: return told.empty() && (is_answer || put.find("Usage") != Text::npos);
    case 1: return put.empty() && is_like(told, leaves_out ? LEFT_OUT_AND_FAULT : FAULT);
    case 2: return put.empty() && told.rfind("error: ", 0) == 0;
    case 3: return is_like(told, leaves_out ? LEFT_OUT_AND_NO_FILE : NO_FILE);
    case 5: return told.empty() ? is_no(command, put) : leaves_out && is_like(told, LEFT_OUT) && (is_answer || is_no(command, put));
    default: return false;
    }
}

// The option that names the file of prices, where it is there the last word.
const Text PRICED = "--prices=prices";

Ended tried(const Words &words) {
    Ended ended = run(words);
    if (!is_documented(words, ended)) stop(words, ended, "not documented");
    return ended;
}

// Runs a command that puts a cut, and gives what it put to the check, with the prices if it had them.
void tried_cut(const Words &words) {
    Ended ended = tried(words);
    if (ended.status != 0 || ended.put.rfind("cut ", 0) != 0) return;
    write_file("report", ended.put);
    Words asked = {words[0] == "cut" ? "check" : "check-net", words[1], "report"};
    if (words.back() == PRICED) asked.push_back(PRICED);
    Ended checked = tried(asked);
    if (checked.status != 0) stop(asked, checked, "a cut doesn't pass the check");
}

struct Examples {
    Words nets, reports, prices, rules, modules, indexes;
    std::map<Text, Text> tree;
};

Examples examples_of(const Text &at) {
    Examples found;
    for (const char *name : {"six.net", "large.net"}) found.nets.push_back(read_file(at + "/" + name));
    for (const char *name : {"six.cut", "large.cut"}) found.reports.push_back(read_file(at + "/" + name));
    found.nets.push_back("import A U 5\nimport U D 1\nimport A V 0\nimport V U 3\n");
    found.nets.push_back("import A B 9223372036854775808\nimport B C 9223372036854775807\n");
    found.reports.push_back("cut A D\nblocked A B D\nend\n");
    found.prices = {"pin Edit Printer\nprice Dictionary Sync 7\nprice Printer Net 1099511627\n", "pin A B\nprice C D 3\n", "pin A B\npin B D\n",
                    "price A M 0\npin M B\n", "pin A U\npin U D\nprice V U 1099511627776\n", "pin A B\nprice B C 5\n", read_file(at + "/editor.prices")};
    found.rules = {read_file(at + "/editor.rules"), "forbid A D\nallow A B\n", "set Low D\nset Low B\nforbid Low Low\nforbid C Low\n",
                   "# of a folder\n\nfolder In in\nforbid In D\nforbid B In\nallow C D\n",
                   "tree All\nnamed Few *A*\nmay Few C # but not B\nforbid-import All SYSTEM\nallow A Gone\n"};
    for (const auto &it : std::filesystem::recursive_directory_iterator(at + "/editor"))
        if (it.is_regular_file()) found.modules.push_back(read_file(it.path()));
    found.indexes.push_back(read_file(at + "/foreign.scip"));
    found.tree = {{"A.Mod", "MODULE A; IMPORT B, C; BEGIN B.p; C.q; C.q END A."},
                  {"B.Mod", "MODULE B; IMPORT D; TYPE S* = RECORD g*: INTEGER END; PROCEDURE p*; BEGIN D.x; D.x; D.x END p; END B."},
                  {"C.Mod", "MODULE C; IMPORT D, B; TYPE T = POINTER TO R; R = RECORD (B.S) f*: ARRAY 3 OF T END; VAR p: T; PROCEDURE q*; BEGIN p.f[1] := p.f[p.g] END q; END C."},
                  {"D.Mod", "MODULE D; IMPORT SYSTEM; VAR y*: ARRAY 4, 5 OF SET; PROCEDURE x*; BEGIN FOR y := 1 TO 2 DO SYSTEM.PUT(y) END END x; END D."}};
    return found;
}

const Words NAMES = {"A", "B", "C", "D", "M", "U", "V", "Edit", "Net", "Sync", "Printer", "SYSTEM", "", "x y", "-", "\xff"};

Text some_name() { return NAMES[below(one_in(6) ? NAMES.size() : 10)]; }

Text some_workers() { return "--workers=" + std::to_string(below(one_in(20) ? 70 : 5)); }

// The words, and in one of two runs a file of prices with them.
Words priced(Words words, const Examples &examples) {
    if (one_in(2)) return words;
    const Text &prices = one_of(examples.prices);
    write_file("prices", one_in(4) ? prices : changed(prices, examples.nets));
    words.push_back(PRICED);
    return words;
}

// A command that draws, of two by flow.
Words pictured(Words words) {
    if (one_in(2)) words.push_back("--flow");
    return words;
}

void try_net(const Examples &examples) {
    const Text &net = one_of(examples.nets);
    write_file("net", one_in(8) ? net : changed(net, examples.reports));
    write_file("report", changed(one_of(examples.reports), examples.nets));
    switch (below(6)) {
    case 5: tried(one_in(2) ? Words{"reach-net", "net", some_name()} : Words{"reach-net", "net", some_name(), "--back"}); break;
    case 0: tried(priced({"check-net", "net", "report"}, examples)); break;
    case 1: tried(priced(pictured({"dot-net", "net", "report"}), examples)); break;
    case 2: tried({"why-net", "net", some_name(), some_name()}); break;
    default: tried_cut(priced({"cut-net", "net", some_name(), some_name(), some_workers()}, examples));
    }
}

// The symbol at a place, which has to be defined where it is by its text.
void tried_symbol(const Text &path) {
    Text line = std::to_string(below(20)), column = std::to_string(below(40));
    Ended one = tried({"def", "index", path, line, column}), symbol = tried({"symbol", "index", path, line, column});
    // control characters are written out, so that text isn't the symbol
    if (symbol.status != 0 || symbol.put.empty() || symbol.put.find('\\') != Text::npos || symbol.put.find('\0') != Text::npos) return;
    Words words = {"def", "index", path, "--symbol=" + symbol.put.substr(0, symbol.put.size() - 1)};
    Ended other = tried(words);
    if (one.status != other.status || one.put != other.put) stop(words, other, "not where the symbol is defined");
}

void try_index(const Examples &examples) {
    write_file("index", changed(one_of(examples.indexes), examples.nets));
    Text path = one_in(4) ? "src/model.ts" : "src/view.ts";
    Words places = {"def", "refs", "symbol"};
    switch (below(6)) {
    case 0: tried(one_in(2) ? Words{"symbols", "index"} : Words{"symbols", "index", path}); break;
    case 1: tried_symbol(path); break;
    default: tried({one_of(places), "index", path, std::to_string(below(20)), std::to_string(below(40))});
    }
}

// Gives the network of the tree, as it is put, to the search for a chain, which has to find what it finds in the tree.
void tried_why(const Text &first, const Text &last) {
    Ended net = tried({"net", "tree"});
    write_file("net", net.put);
    Words words = {"why-net", "net", first, last};
    Ended one = tried({"why", "tree", first, last});
    if (net.status != 0) return;
    Ended other = tried(words);
    if (one.status != other.status || one.put != other.put) stop(words, other, "not the chain in the tree");
}

// Words of a command that reads the tree, of which another run gives the same answer.
Words some_command() {
    switch (below(4)) {
    case 0: return {"net", "tree"};
    case 1: return {"modules", "tree"};
    case 2: return {"reach", "tree", some_name()};
    default: return {"crossings", "tree", some_name(), some_name()};
    }
}

// With --skip-faults a command has the answer that it has once the files of these lines of faults are removed.
void tried_without(const Text &faults) {
    Words words = some_command(), skipping = words;
    skipping.push_back("--skip-faults");
    Ended skipped = tried(skipping);
    std::istringstream lines(faults);
    Text line;
    bool is_whole = true;
    while (std::getline(lines, line))
        if (std::filesystem::remove("tree/" + line.substr(0, line.find(':')))) is_whole = false;
    Ended rest = tried(words);
    if (skipped.put != rest.put || skipped.status != (rest.status == 0 && !is_whole ? 5 : rest.status)) stop(skipping, skipped, "not the answer for the other files");
}

// A folder that is excluded is as one that isn't there.
void tried_excluding() {
    Words words = some_command(), excluding = words;
    excluding.push_back(one_in(2) ? "--exclude=in" : "--exclude=in/*");
    Ended excluded = tried(excluding);
    std::filesystem::remove_all("tree/in");
    Ended rest = tried(words);
    if (excluded.put != rest.put || excluded.told != rest.told || excluded.status != rest.status) stop(excluding, excluded, "not the answer without the folder");
}

// The faults of all files: the first is that of any other command. An index that leaves these files out reports each, and then the
// fault of the imports, if it has one.
void tried_faults() {
    Ended faults = tried({"faults", "tree"}), net = tried({"net", "tree"});
    Words words = {"index", "tree", "--hex", "--skip-faults"};
    Ended index = tried(words);
    std::istringstream lines(faults.put);
    Text all, line;
    while (std::getline(lines, line)) all += "oscip: " + line + "\n";
    if (faults.status == 0) {
        if (net.status != 0 || index.status != 0) stop(words, index, "not the faults of the tree");
        return;
    }
    bool has_first = net.status == 1 && net.told == all.substr(0, all.find('\n') + 1);
    bool has_all = index.status == 5 ? index.told == all : index.status == 1 && index.told.rfind(all, 0) == 0;
    if (!has_first || !has_all) stop(words, index, "not the faults of the tree");
    tried_without(faults.put);
}

void try_tree(const Examples &examples) {
    std::filesystem::remove_all("tree");
    std::filesystem::create_directories("tree/in");
    size_t worse = below(examples.tree.size() + 1), number = 0;
    for (const auto &[name, text] : examples.tree) {
        Text at = one_in(3) ? "tree/in/" : "tree/";
        write_file(at + name, number++ == worse ? changed(text, examples.modules) : text);
    }
    if (one_in(3)) {
        const Text &module = one_of(examples.modules);
        write_file("tree/More.Mod", one_in(4) ? module : changed(module, examples.modules));
    }
    write_file("report", changed(one_of(examples.reports), examples.nets));
    switch (below(15)) {
    case 12: tried(some_command()); break;
    case 13: tried_excluding(); break;
    case 9: case 14: tried_faults(); break;
    case 10: case 11: {
        const Text &rules = one_of(examples.rules);
        write_file("rules", one_in(3) ? rules : changed(rules, examples.nets));
        tried(one_in(2) ? Words{"rules", "tree", "rules"} : Words{"rules", "tree", "rules", one_in(2) ? "--editor" : "--skip-faults"});
        break;
    }
    case 0: tried(priced({"check", "tree", "report"}, examples)); break;
    case 1: tried(priced(pictured({"dot", "tree", "report"}), examples)); break;
    case 2: tried({"crossings", "tree", some_name(), some_name()}); break;
    case 3: tried({"unresolved", "tree"}); break;
    case 4: tried_cut(priced({"cut", "tree", some_name(), some_name(), some_workers()}, examples)); break;
    case 5: tried({"index", "tree", "out", one_in(2) ? "--atomic" : some_workers()}); break;
    case 6: tried_why(some_name(), some_name()); break;
    default: {
        Ended one = tried({"index", "tree", "--hex", "--workers=1"});
        Words words = {"index", "tree", "--hex", "--workers=4"};
        Ended four = tried(words);
        if (one.status != four.status || one.put != four.put || one.told != four.told) stop(words, four, "not what one worker puts");
    }
    }
}

const Words SAID = {"cut", "cut-net", "check", "check-net", "dot", "dot-net", "def", "refs", "crossings", "why", "why-net", "rules", "faults", "symbol", "symbols", "modules", "reach", "reach-net", "--back", "--symbol=x", "--symbol", "--skip-faults", "--editor", "--exclude", "--exclude=*.Mod", "--atomic", "index", "unresolved", "help", "--help", "-h", "-V", "--version",
    "--workers", "--workers=2", "--workers=99", "--prices", "--prices=prices", "--hex", "--flow", "--package", "--package=p", "--package= p", "--root=r", "--", "-", "net", "report", "tree", "index", "gone", "A", "B", "0", "3",
    "-1", "2147483648", "", "\xff"};

// Each front of a text, and the text with one byte changed at each place, in the file of that name; then the commands.
void try_each(const Text &text, const Text &name, const std::vector<Words> &commands) {
    for (size_t at = 0; at <= text.size(); ++at) {
        write_file(name, text.substr(0, at));
        for (const Words &words : commands) tried(words);
        if (at == text.size()) break;
        Text other = text;
        other[at] = static_cast<char>(one_in(2) ? text[at] ^ (1 << below(8)) : below(256));
        write_file(name, other);
        for (const Words &words : commands) tried(words);
    }
}

void try_all(const Examples &examples) {
    write_file("net", examples.nets[1]);
    write_file("report", examples.reports[1]);
    try_each(examples.nets[1], "net", {{"cut-net", "net", "Edit", "Net", "--workers=2"}, {"check-net", "net", "report"}, {"why-net", "net", "Edit", "Net"}});
    write_file("net", examples.nets[1]);
    try_each(examples.reports[1], "report", {{"check-net", "net", "report"}, {"dot-net", "net", "report"}});
    write_file("report", examples.reports[1]);
    Words cut = {"cut-net", "net", "Edit", "Net", "--workers=2", PRICED}, check = {"check-net", "net", "report", PRICED};
    try_each(examples.prices[0], "prices", {cut, check, {"dot-net", "net", "report", PRICED}});
    write_file("net", "import A B 1\nimport B D 3\n");
    write_file("prices", examples.prices[2]);
    try_each(examples.reports.back(), "report", {check, {"dot-net", "net", "report", PRICED}});
    try_each(examples.indexes[0], "index", {{"def", "index", "src/view.ts", "2", "19"}, {"refs", "index", "src/view.ts", "6", "9"},
        {"symbol", "index", "src/view.ts", "2", "19"}, {"symbols", "index"}, {"symbols", "index", "src/view.ts"}});
    std::filesystem::create_directory("tree");
    for (const auto &[name, text] : examples.tree) write_file("tree/" + name, text);
    tried({"index", "tree", "index"});
    try_each(read_file("index"), "index", {{"def", "index", "A.Mod", "0", "7"}, {"refs", "index", "C.Mod", "0", "93"}});
    tried({"rules", "tree", "gone"});
    std::filesystem::create_directory("tree/in");
    write_file("tree/in/E.Mod", "MODULE E; IMPORT D; END E.");
    for (const Text &text : examples.rules) try_each(text, "rules", {{"rules", "tree", "rules"}});
    std::filesystem::create_directory("one");
    for (const auto &[name, text] : examples.tree) {
        std::vector<Words> commands = {{"cut", "tree", "A", "D"}, {"cut", "tree", "A", "D", PRICED}, {"net", "tree"}, {"unresolved", "tree"}, {"index", "tree", "--hex"},
            {"faults", "tree"}, {"index", "tree", "--hex", "--skip-faults"}};
        try_each(text, "tree/" + name, commands);
        write_file("tree/" + name, text);
    }
    for (const Text &text : examples.modules) try_each(text, "one/M.Mod", {{"index", "one", "--hex", "--workers=1"}});
}

void try_words() {
    Words words;
    for (size_t left = below(7); left > 0; --left) words.push_back(one_of(SAID));
    tried(words);
}

}  // namespace

int main(int count, char **words) {
    if (count != 5) return 2;
    program = std::filesystem::canonical(words[1]);
    Examples examples = examples_of(std::filesystem::canonical(words[2]));
    uint64_t seed = strtoull(words[3], nullptr, 10), runs = strtoull(words[4], nullptr, 10);
    folder = (std::filesystem::temp_directory_path() / ("fuzz-" + std::to_string(seed))).string();
    std::filesystem::remove_all(folder);
    std::filesystem::create_directories(folder);
    std::filesystem::current_path(folder);
    struct sigaction late = {};
    late.sa_handler = kill_late;
    sigaction(SIGALRM, &late, nullptr);
    rlimit memory = {4ull << 30, 4ull << 30};
    setrlimit(RLIMIT_AS, &memory);
    if (seed == 0) try_all(examples);
    for (uint64_t at = 0; at < runs; ++at) {
        // each run has bits of its own, so that one can be tried again
        random_bits.seed(seed * 1000003 + at);
        switch (below(10)) {
        case 0: try_words(); break;
        case 1: case 2: try_index(examples); break;
        case 3: case 4: case 5: try_net(examples); break;
        default: try_tree(examples);
        }
    }
    std::filesystem::current_path("/");
    std::filesystem::remove_all(folder);
    if (seed == 0) std::cout << "every front, and each byte changed" << std::endl;
    else std::cout << "seed " << seed << ": " << runs << " runs" << std::endl;
    return 0;
}
