// Work and span of a program text by the whole relation, pair by pair: slow, and nothing of the recorder is used.
#pragma once
#include <cstdint>
#include <string>

struct Numbers {
  int64_t tasks = 0, work = 0, span = 0;
};

Numbers numbers_of(const std::string &text);  // the text without its first line
