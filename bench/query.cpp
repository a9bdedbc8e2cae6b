// A plain reader of indexes: decodes all of one into strings and vectors, and answers one question.
// It looks at no fault of the bytes and proves nothing. query COMMAND INDEX PATH LINE COL
#include <cstdint>
#include <cstdio>
#include <cstdlib>
#include <cstring>
#include <fstream>
#include <iterator>
#include <string>
#include <string_view>
#include <vector>

struct Occurrence {
  std::vector<int64_t> range;
  std::string symbol;
  uint64_t roles = 0;
};

struct Document {
  std::string path;
  std::vector<Occurrence> occurrences;
};

static uint64_t varint(std::string_view bytes, size_t &at) {
  uint64_t value = 0;
  for (int shift = 0;; shift += 7) {
    uint64_t byte = static_cast<unsigned char>(bytes.at(at++));
    if (shift < 64) value |= (byte & 127) << shift;
    if (byte < 128) return value;
  }
}

// Calls take(number, value, payload) for each field.
template <class Take> static void fields(std::string_view bytes, Take take) {
  for (size_t at = 0; at < bytes.size();) {
    uint64_t key = varint(bytes, at);
    if (key % 8 == 0) {
      take(key / 8, varint(bytes, at), std::string_view());
    } else {
      size_t length = key % 8 == 2 ? varint(bytes, at) : key % 8 == 1 ? 8 : 4;
      take(key / 8, 0, bytes.substr(at, length));
      at += length;
    }
  }
}

static Occurrence occurrence_of(std::string_view bytes) {
  Occurrence it;
  fields(bytes, [&](uint64_t number, uint64_t value, std::string_view payload) {
    if (number == 1 && payload.data()) {
      for (size_t at = 0; at < payload.size();) it.range.push_back(static_cast<int32_t>(varint(payload, at)));
    } else if (number == 1) {
      it.range.push_back(static_cast<int32_t>(value));
    } else if (number == 2) {
      it.symbol = payload;
    } else if (number == 3) {
      it.roles = value;
    }
  });
  return it;
}

static Document document_of(std::string_view bytes) {
  Document it;
  fields(bytes, [&](uint64_t number, uint64_t, std::string_view payload) {
    if (number == 1) it.path = payload;
    if (number == 2) it.occurrences.push_back(occurrence_of(payload));
  });
  return it;
}

int main(int, char **words) {
  std::ifstream file(words[2], std::ios::binary);
  std::string bytes((std::istreambuf_iterator<char>(file)), std::istreambuf_iterator<char>());
  std::vector<Document> documents;
  fields(bytes, [&](uint64_t number, uint64_t, std::string_view payload) {
    if (number == 2) documents.push_back(document_of(payload));
  });
  int64_t line = atoll(words[4]), column = atoll(words[5]);
  const Occurrence *found = nullptr;
  for (const Document &document : documents)
    if (document.path == words[3])
      for (const Occurrence &it : document.occurrences)
        if (it.range.size() == 3 && it.range[0] == line && it.range[1] <= column && column < it.range[2]) found = &it;
  if (!found) return 0;
  bool defines = !strcmp(words[1], "def"), local = found->symbol.rfind("local ", 0) == 0;
  for (const Document &document : documents)
    if (!local || document.path == words[3])
      for (const Occurrence &it : document.occurrences)
        if (it.symbol == found->symbol && (it.roles % 2 == 1) == defines)
          printf("%s:%ld:%ld-%ld:%ld\n", document.path.c_str(), it.range[0], it.range[1], it.range[0], it.range[2]);
}
