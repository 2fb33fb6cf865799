// Numbers for the addresses that tasks depend on.
#pragma once
#include <array>
#include <cstdint>

#include "column.hpp"

class Locations {
 public:
  uint32_t number(uint64_t address);  // from 0, in the order in which they are first asked for
  uint32_t size() const { return count; }

 private:
  // Neighbouring addresses lie together, as a program's blocks do.
  static constexpr uint64_t in_line = 16;
  using Line = std::array<uint32_t, in_line>;  // one more than the numbers, 0 where there is none
  struct Slot {
    uint64_t line = 0;  // its addresses divided by their number
    uint32_t at = 0;  // one more than its place, 0 where the slot is free
  };
  Column<Slot> slots;  // a power of two, of which at most half are taken
  Column<Line> lines;
  uint32_t count = 0;

  Slot &find(uint64_t line);
  Line &line_of(uint64_t line);
  void grow();
};
