#include "message.hpp"

#include <cstdio>

Message::~Message() {
  std::string words = end() + "\n";
  fwrite(words.data(), 1, words.size(), stdout);
  fflush(stdout);
}
