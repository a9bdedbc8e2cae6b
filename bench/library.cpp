// What Google's library does with an index: library INDEX ROUNDS says the least nanoseconds of so many rounds of reading and of writing it;
// library COMMAND INDEX PATH LINE COL reads the whole of it and answers a question.
#include "index.pb.h"
#include <algorithm>
#include <chrono>
#include <cstdio>
#include <cstdlib>
#include <fstream>
#include <iterator>
#include <string>

static bool covers(const wire::Occurrence &it, int line, int column) {
  const auto &range = it.range();
  if (range.size() < 3 || it.symbol().empty()) return false;
  auto end = range.size() == 3 ? std::make_pair(range[0], range[2]) : std::make_pair(range[2], range[3]);
  auto at = std::make_pair(line, column);
  return std::make_pair(range[0], range[1]) <= at && at < end;
}

static void answer(const wire::Index &whole, char **words) {
  const wire::Occurrence *found = nullptr;
  for (const auto &document : whole.documents()) {
    if (document.relative_path() != words[3]) continue;
    for (const auto &it : document.occurrences())
      if (!found && covers(it, atoi(words[4]), atoi(words[5]))) found = &it;
  }
  if (!found) return;
  bool is_local = found->symbol().rfind("local ", 0) == 0;
  for (const auto &document : whole.documents()) {
    if (is_local && document.relative_path() != words[3]) continue;
    for (const auto &it : document.occurrences()) {
      if (it.symbol() != found->symbol() || (it.symbol_roles() & 1) != (std::string(words[1]) == "def")) continue;
      const auto &range = it.range();
      bool is_short = range.size() == 3;
      printf("%s:%d:%d-%d:%d\n", document.relative_path().c_str(), range[0], range[1], is_short ? range[0] : range[2], is_short ? range[2] : range[3]);
    }
  }
}

static std::string bytes_of(const char *path) {
  std::ifstream file(path, std::ios::binary);
  return std::string((std::istreambuf_iterator<char>(file)), std::istreambuf_iterator<char>());
}

template <class Run> static long timed(Run run) {
  auto start = std::chrono::steady_clock::now();
  run();
  return std::chrono::duration_cast<std::chrono::nanoseconds>(std::chrono::steady_clock::now() - start).count();
}

int main(int count, char **words) {
  if (count == 6) {
    wire::Index whole;
    if (!whole.ParseFromString(bytes_of(words[2]))) return 1;
    answer(whole, words);
    return 0;
  }
  std::string bytes = bytes_of(words[1]), again;
  long read = -1, written = -1;
  for (int round = 0; round < atoi(words[2]); ++round) {
    wire::Index whole;
    bool is_read = true;
    long now = timed([&] { is_read = whole.ParseFromString(bytes); });
    if (!is_read) return 1;
    read = read < 0 ? now : std::min(read, now);
    now = timed([&] { whole.SerializeToString(&again); });
    written = written < 0 ? now : std::min(written, now);
  }
  printf("%ld %ld\n", read, written);
}
