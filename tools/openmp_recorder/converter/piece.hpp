// A piece of text that words and numbers are put at the end of.
#pragma once
#include <charconv>
#include <cstdint>
#include <cstring>
#include <string>
#include <string_view>

class Piece {
 public:
  std::string_view words() const { return {text.data(), used}; }
  std::size_t size() const { return used; }
  void clear() { used = 0; }

  template <std::size_t length>
  void put(const char (&literal)[length]) {  // of a length that the compiler knows
    std::memcpy(room_for(length - 1), literal, length - 1);
    used += length - 1;
  }
  void put(std::string_view words) {
    std::memcpy(room_for(words.size()), words.data(), words.size());
    used += words.size();
  }
  void blanks(std::size_t count) {
    std::memset(room_for(count), ' ', count);
    used += count;
  }
  template <class Number>
  void number(Number value) {
    constexpr std::size_t most_digits = 20;
    char *first = room_for(most_digits);
    used = static_cast<std::size_t>(std::to_chars(first, first + most_digits, value).ptr - text.data());
  }

 private:
  std::string text;  // longer than what is used of it
  std::size_t used = 0;

  char *room_for(std::size_t more) {
    if (text.size() - used < more) text.resize(2 * (used + more));
    return text.data() + used;
  }
};
