// How large a region's text is, and whether the limits of spanprof_large hold it.
#pragma once
#include <string>

#include "run.hpp"

constexpr uint64_t most_tasks = 4096;  // of the ten commands of spanprof
constexpr uint64_t most_blocks = 1048576, most_items = 65536;  // of spanprof_large

struct Size {
  uint64_t tasks = 0, segments = 1, blocks = 0, items = 0;
  int64_t largest = 0, total = 0;  // of work, in nanoseconds
  void add(const Size &next);  // part of the same text
};

int64_t own_cost(const Task &t);  // of its code alone
void add_up(Region &region);  // the totals of its tasks
Size size_of(Region &region);  // of one that is added up; finds which of its tasks are written

// Which limit is exceeded; without a name it fits.
struct Excess {
  std::string what;
  uint64_t has = 0, takes = 0;
  explicit operator bool() const { return !what.empty(); }
};
Excess over_the_limits(const Size &size, int64_t unit);
