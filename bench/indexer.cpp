// A plain indexer of Oberon-07 modules, to time the program against: it resolves heads of designators and qualified names alone, with
// the usual containers of C++, knows no field behind a dot, looks at no limit, and proves nothing.
// Usage: indexer FOLDER OUT [THREADS]
#include <algorithm>
#include <atomic>
#include <cstdint>
#include <cstdio>
#include <cstdlib>
#include <filesystem>
#include <fstream>
#include <map>
#include <sstream>
#include <string>
#include <string_view>
#include <thread>
#include <unordered_map>
#include <unordered_set>
#include <vector>

using std::string, std::string_view, std::vector;
namespace fs = std::filesystem;

enum Kind : uint8_t { Name, Literal, Sign, Word, End };

struct Token {
  Kind kind;
  uint32_t start, end;
};

const std::unordered_set<string_view> reserved{"ARRAY", "BEGIN", "BY", "CASE", "CONST", "DIV", "DO", "ELSE", "ELSIF", "END", "FALSE", "FOR", "IF", "IMPORT", "IN", "IS", "MOD", "MODULE", "NIL", "OF", "OR", "POINTER", "PROCEDURE", "RECORD", "REPEAT", "RETURN", "THEN", "TO", "TRUE", "TYPE", "UNTIL", "VAR", "WHILE"};

enum Sort : uint8_t { Import, Constant, Type, Variable, Procedure, Parameter, Field };

struct Decl {
  uint32_t token;
  Sort sort;
  bool star, local;
  uint32_t number;  // of a local
  string symbol;
};

struct Module;

struct Block {
  Block* outer;
  std::unordered_map<string_view, Decl*> names;
};

struct Use {
  uint32_t token;
  Decl* decl = nullptr;
  string symbol;
  int role = 0;
};

struct Module {
  string path, text, name;
  vector<Token> tokens;
  size_t at = 0;
  vector<Decl*> decls;
  std::unordered_map<string_view, string_view> aliases;
  vector<std::pair<uint32_t, uint32_t>> items;
  Block top{nullptr, {}};
  vector<Use> uses;
  uint32_t locals = 0;
  std::unordered_map<string_view, Decl*> exported;

  string_view word(uint32_t k) const { return string_view(text).substr(tokens[k].start, tokens[k].end - tokens[k].start); }
  bool is(const char* w) const { return at < tokens.size() && word(at) == w; }
  bool has(const char* w) { return is(w) && (++at, true); }
  uint32_t take(const char* w) {
    if (!is(w)) fail(w);
    return at++;
  }
  uint32_t take_name() {
    if (tokens[at].kind != Name) fail("a name");
    return at++;
  }
  void fail(const char* w) {
    fprintf(stderr, "%s:%u: no %s\n", path.c_str(), at < tokens.size() ? tokens[at].start : 0, w);
    exit(1);
  }

  void scan() {
    const char* s = text.data();
    size_t n = text.size(), i = 0;
    auto hex = [](char c) { return (c >= '0' && c <= '9') || (c >= 'A' && c <= 'F'); };
    while (i < n) {
      unsigned char c = s[i];
      if (c <= 32) { i++; continue; }
      if (c == '(' && i + 1 < n && s[i + 1] == '*') {
        int depth = 1;
        i += 2;
        while (depth && i < n) {
          if (s[i] == '(' && s[i + 1] == '*') depth++, i += 2;
          else if (s[i] == '*' && s[i + 1] == ')') depth--, i += 2;
          else i++;
        }
        continue;
      }
      size_t from = i;
      Kind kind = Sign;
      if (isalpha(c)) {
        while (i < n && isalnum((unsigned char)s[i])) i++;
        kind = reserved.count(string_view(s + from, i - from)) ? Word : Name;
      } else if (isdigit(c)) {
        while (i < n && hex(s[i])) i++;
        if (s[i] == 'H' || s[i] == 'X') i++;
        else if (s[i] == '.' && s[i + 1] != '.') {
          i++;
          while (isdigit((unsigned char)s[i])) i++;
          if (s[i] == 'E') {
            i++;
            if (s[i] == '+' || s[i] == '-') i++;
            while (isdigit((unsigned char)s[i])) i++;
          }
        }
        kind = Literal;
      } else if (c == '"') {
        i++;
        while (s[i] != '"') i++;
        i++;
        kind = Literal;
      } else {
        char d = i + 1 < n ? s[i + 1] : 0;
        i += (d == '=' && (c == ':' || c == '<' || c == '>')) || (c == '.' && d == '.') ? 2 : 1;
      }
      tokens.push_back({kind, (uint32_t)from, (uint32_t)i});
    }
  }

  Decl* declare(uint32_t token, Sort sort, Block* block, bool star, string symbol) {
    bool local = block != &top;
    auto* d = new Decl{token, sort, star, local, local ? locals++ : 0, std::move(symbol)};
    decls.push_back(d);
    block->names.emplace(word(token), d);
    return d;
  }
  string symbol_of(uint32_t token, const char* tail) { return name + "/" + string(word(token)) + tail; }
  Decl* identdef(Sort sort, Block* block, const char* tail) {
    uint32_t k = take_name();
    return declare(k, sort, block, has("*"), symbol_of(k, tail));
  }
  void use(uint32_t k, Block* block, bool written = false) {
    string_view w = word(k);
    for (Block* b = block; b; b = b->outer) {
      auto it = b->names.find(w);
      if (it != b->names.end()) {
        auto s = it->second->sort;
        uses.push_back({k, it->second, "", s == Variable || s == Parameter ? (written ? 4 : 8) : 0});
        return;
      }
    }
  }
  void qualident(Block* block) {
    uint32_t k = take_name();
    use(k, block);
    if (has(".")) uses.push_back({take_name(), nullptr, string(word(k))});
  }

  void module() {
    take("MODULE");
    name = word(take_name());
    take(";");
    if (has("IMPORT")) {
      do {
        uint32_t alias = take_name(), named = has(":=") ? take_name() : alias;
        declare(alias, Import, &top, false, "");
        aliases[word(alias)] = word(named);
        items.push_back({alias, named});
      } while (has(","));
      take(";");
    }
    declarations(&top);
    if (has("BEGIN")) statements(&top);
    take("END");
    uses.push_back({take_name(), nullptr, "", 0});
    take(".");
  }
  void declarations(Block* block) {
    if (has("CONST"))
      while (tokens[at].kind == Name) identdef(Constant, block, "."), take("="), expression(block), take(";");
    if (has("TYPE"))
      while (tokens[at].kind == Name) {
        Decl* d = identdef(Type, block, "#");
        take("=");
        form(block, d);
        take(";");
      }
    if (has("VAR"))
      while (tokens[at].kind == Name) variables(block, nullptr), take(";");
    while (is("PROCEDURE")) procedure(block), take(";");
  }
  void variables(Block* block, Decl* owner) {
    Decl* first = nullptr;
    do {
      if (owner) {
        uint32_t k = take_name();
        bool local = block != &top;
        auto* d = new Decl{k, Field, has("*"), local, local ? locals++ : 0, owner->symbol + string(word(k)) + "."};
        decls.push_back(d);
        if (!first) first = d;
      } else {
        Decl* d = identdef(Variable, block, ".");
        if (!first) first = d;
      }
    } while (has(","));
    take(":");
    form(block, first);
  }
  void procedure(Block* outer) {
    take("PROCEDURE");
    Decl* d = identdef(Procedure, outer, "().");
    Block block{outer, {}};
    if (is("(")) parameters(&block);
    take(";");
    declarations(&block);
    if (has("BEGIN")) statements(&block);
    if (has("RETURN")) expression(&block);
    take("END");
    uses.push_back({take_name(), d});
  }
  void parameters(Block* block) {
    take("(");
    if (!is(")")) do {
        has("VAR");
        do declare(take_name(), Parameter, block, false, "");
        while (has(","));
        take(":");
        while (has("ARRAY")) take("OF");
        qualident(block);
      } while (has(";"));
    take(")");
    if (has(":")) qualident(block);
  }
  void form(Block* block, Decl* owner) {
    if (has("ARRAY")) {
      list(block);
      take("OF");
      form(block, owner);
    } else if (has("POINTER")) {
      take("TO");
      form(block, owner);
    } else if (has("RECORD")) {
      if (has("(")) qualident(block), take(")");
      while (tokens[at].kind == Name) {
        variables(block, owner);
        if (!has(";")) break;
      }
      take("END");
    } else if (has("PROCEDURE")) {
      Block inner{block, {}};
      if (is("(")) parameters(&inner);
    } else qualident(block);
  }
  void statements(Block* block) {
    do statement(block);
    while (has(";"));
  }
  void statement(Block* block) {
    if (tokens[at].kind == Name) {
      size_t place = uses.size();
      bool alone = designator(block);
      if (has(":=")) {
        if (alone && place < uses.size() && uses[place].role == 8) uses[place].role = 4;
        expression(block);
      }
    } else if (is("IF") || is("WHILE")) {
      const char* behind = is("IF") ? "THEN" : "DO";
      at++;
      expression(block), take(behind), statements(block);
      while (has("ELSIF")) expression(block), take(behind), statements(block);
      if (has("ELSE")) statements(block);
      take("END");
    } else if (has("CASE")) {
      expression(block), take("OF");
      do
        if (!is("|") && !is("END")) {
          do {
            label(block);
            if (has("..")) label(block);
          } while (has(","));
          take(":"), statements(block);
        }
      while (has("|"));
      take("END");
    } else if (has("REPEAT")) {
      statements(block), take("UNTIL"), expression(block);
    } else if (has("FOR")) {
      use(take_name(), block, true);
      take(":="), expression(block), take("TO"), expression(block);
      if (has("BY")) expression(block);
      take("DO"), statements(block), take("END");
    }
  }
  void label(Block* block) {
    if (tokens[at].kind == Name) qualident(block);
    else at++;
  }
  void list(Block* block) {
    do expression(block);
    while (has(","));
  }
  bool among(std::initializer_list<const char*> words) {
    for (auto w : words)
      if (is(w)) return true;
    return false;
  }
  void expression(Block* block) {
    simple(block);
    if (among({"=", "#", "<", "<=", ">", ">=", "IN", "IS"})) at++, simple(block);
  }
  void simple(Block* block) {
    if (is("+") || is("-")) at++;
    term(block);
    while (among({"+", "-", "OR"})) at++, term(block);
  }
  void term(Block* block) {
    factor(block);
    while (among({"*", "/", "DIV", "MOD", "&"})) at++, factor(block);
  }
  void factor(Block* block) {
    if (tokens[at].kind == Name) designator(block);
    else if (has("(")) expression(block), take(")");
    else if (has("~")) factor(block);
    else if (has("{")) {
      if (!is("}")) do {
          expression(block);
          if (has("..")) expression(block);
        } while (has(","));
      take("}");
    } else at++;
  }
  bool designator(Block* block) {
    uint32_t k = take_name();
    size_t before = uses.size();
    use(k, block);
    bool alias = uses.size() > before && uses.back().decl && uses.back().decl->sort == Import, alone = true;
    if (alias && has(".")) uses.push_back({take_name(), nullptr, string(word(k))});
    for (;;) {
      if (has(".")) take_name();
      else if (has("[")) list(block), take("]");
      else if (has("^")) {}
      else if (has("(")) {
        if (!is(")")) list(block);
        take(")");
      } else return alone;
      alone = false;
    }
  }
};

void varint(string& out, uint64_t n) {
  while (n > 127) out += char(n % 128 + 128), n /= 128;
  out += char(n);
}
void part(string& out, int field, string_view data) {
  varint(out, field * 8 + 2);
  varint(out, data.size());
  out += data;
}
void number(string& out, int field, uint64_t n) {
  if (n) varint(out, field * 8), varint(out, n);
}

// Calls f with each number below the count, by so many threads.
template <class F>
void for_each(size_t count, int threads, F f) {
  std::atomic<size_t> next{0};
  auto run = [&] {
    for (size_t at; (at = next++) < count;) f(at);
  };
  vector<std::thread> others;
  for (int k = 1; k < threads; k++) others.emplace_back(run);
  run();
  for (auto& it : others) it.join();
}

int main(int count, char** words) {
  vector<Module> modules;
  string root = words[1];
  int threads = count > 3 ? atoi(words[3]) : 1;
  for (auto& it : fs::recursive_directory_iterator(root))
    if (it.path().extension() == ".Mod" || it.path().extension() == ".mod") {
      std::ifstream in(it.path(), std::ios::binary);
      std::stringstream all;
      all << in.rdbuf();
      modules.emplace_back();
      modules.back().path = fs::relative(it.path(), root).string();
      modules.back().text = all.str();
    }
  std::sort(modules.begin(), modules.end(), [](auto& a, auto& b) { return a.path < b.path; });
  std::unordered_map<string_view, Module*> by_name;
  for_each(modules.size(), threads, [&](size_t at) {
    auto& m = modules[at];
    m.scan();
    m.module();
    for (auto* d : m.decls)
      if (d->star && !d->local && d->sort != Field) m.exported[m.word(d->token)] = d;
  });
  for (auto& m : modules) by_name[m.name] = &m;
  string index, metadata, tool;
  part(tool, 1, "plain"), part(tool, 2, "1"), part(metadata, 2, tool), number(metadata, 4, 1), part(index, 1, metadata);
  vector<string> documents(modules.size());
  vector<std::map<string, string>> outside(modules.size());
  const string front = "scip-oberon . . . ";
  for_each(modules.size(), threads, [&](size_t at) {
    auto& m = modules[at];
    auto& externals = outside[at];
    vector<uint32_t> lines{0};
    for (size_t i = 0; i < m.text.size(); i++)
      if (m.text[i] == '\n') lines.push_back(i + 1);
    vector<std::pair<uint32_t, std::pair<string, int>>> all;
    all.push_back({1, {front + m.name + "/", 1}});
    auto text_of = [&](Decl* d) { return d->local ? "local " + std::to_string(d->number) : front + d->symbol; };
    auto module_of = [&](string_view n) {
      string text = front + string(n) + "/";
      if (!by_name.count(n)) externals[text] = n;
      return text;
    };
    for (auto& [alias, named] : m.items) {
      all.push_back({alias, {module_of(m.word(named)), 2}});
      if (named != alias) all.push_back({named, {module_of(m.word(named)), 2}});
    }
    for (auto* d : m.decls)
      if (d->sort != Import) all.push_back({d->token, {text_of(d), 1}});
    for (auto& u : m.uses) {
      if (u.decl && u.decl->sort == Import) all.push_back({u.token, {module_of(m.aliases[m.word(u.decl->token)]), 0}});
      else if (u.decl) all.push_back({u.token, {text_of(u.decl), u.role}});
      else if (u.symbol.empty()) all.push_back({u.token, {front + m.name + "/", 0}});
      else {
        auto it = m.aliases.find(u.symbol);
        if (it == m.aliases.end()) continue;
        auto other = by_name.find(it->second);
        if (other == by_name.end()) {
          string text = front + string(it->second) + "/" + string(m.word(u.token)) + ".";
          externals[text] = m.word(u.token);
          all.push_back({u.token, {text, 0}});
        } else {
          auto d = other->second->exported.find(m.word(u.token));
          if (d != other->second->exported.end()) all.push_back({u.token, {front + d->second->symbol, d->second->sort == Variable ? 8 : 0}});
        }
      }
    }
    std::sort(all.begin(), all.end(), [](auto& a, auto& b) { return a.first < b.first; });
    string document, symbols, scratch, range;
    part(document, 1, m.path);
    size_t line = 0;
    for (auto& [k, what] : all) {
      uint32_t start = m.tokens[k].start;
      while (line + 1 < lines.size() && lines[line + 1] <= start) line++;
      range.clear(), scratch.clear();
      varint(range, line), varint(range, start - lines[line]), varint(range, m.tokens[k].end - lines[line]);
      part(scratch, 1, range), part(scratch, 2, what.first), number(scratch, 3, what.second);
      part(document, 2, scratch);
      if (what.second == 1) {
        scratch.clear();
        part(scratch, 1, what.first), part(scratch, 6, m.word(k));
        part(symbols, 3, scratch);
      }
    }
    document += symbols;
    part(document, 4, "Oberon"), number(document, 6, 1);
    documents[at] = std::move(document);
  });
  std::map<string, string> externals;
  for (size_t at = 0; at < modules.size(); at++) {
    part(index, 2, documents[at]);
    externals.insert(outside[at].begin(), outside[at].end());
  }
  for (auto& [text, name] : externals) {
    string scratch;
    part(scratch, 1, text), part(scratch, 6, name);
    part(index, 3, scratch);
  }
  std::ofstream(words[2], std::ios::binary) << index;
}
