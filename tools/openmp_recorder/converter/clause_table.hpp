// What clauses tasks have, with how often each was met at which place: there may be as many as tasks.
#pragma once
#include <cstdint>
#include <string_view>

#include "column.hpp"

struct Clauses {
  uint64_t at;  // of their words among all
  uint32_t length, place, kind;  // of the first such task
  uint32_t hash;
  uint32_t count = 0, again = 0;  // tasks, and those right behind another one with the same
};

class ClauseTable {
 public:
  uint32_t number(std::string_view clauses, uint32_t place, uint32_t kind);  // from 0; a kind counts where they are new
  Clauses &operator[](uint32_t number) { return all[number]; }
  uint32_t size() const { return static_cast<uint32_t>(all.size()); }
  std::string_view words(const Clauses &of) const { return {letters.begin() + of.at, of.length}; }

 private:
  Column<Clauses> all;
  Column<char> letters;
  Column<uint32_t> slots;  // one more than a number, 0 where it is free; a power of two, at most half of them taken
  template <class Is>
  uint32_t &find(uint32_t hash, const Is &is);
  void grow();
};
