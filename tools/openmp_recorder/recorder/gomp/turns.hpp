// How many turns a loop has, by its bounds and its step.
#pragma once
#include <cstdint>

// Of unsigned turns; the step of a loop that goes down is the negative one, as an unsigned number.
inline uint64_t turns_between(bool is_up, uint64_t from, uint64_t to, uint64_t step) {
  if (is_up) return from < to ? (to - from - 1) / step + 1 : 0;
  return from > to ? (from - to - 1) / -step + 1 : 0;
}

// In unsigned arithmetic, since the distance of two longs may be more than a long holds.
inline uint64_t turns_between(long from, long to, long step) {
  bool is_up = step > 0;
  if (is_up ? from >= to : from <= to) return 0;
  auto number = [](long of) { return static_cast<uint64_t>(of); };
  return is_up ? (number(to) - number(from) - 1) / number(step) + 1
               : (number(from) - number(to) - 1) / -number(step) + 1;
}
