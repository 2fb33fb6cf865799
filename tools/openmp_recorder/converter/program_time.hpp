// How the whole program's time divides, on the wall clock.
#pragma once
#include <cstdint>
#include <vector>

#include "run.hpp"

struct ProgramTime {
  int64_t outside = 0, in_regions = 0;
};

// In code: outside of regions the time of one thread, in them that of all threads, without waiting. What passes while a
// task is in a region of its own is that region's.
struct ThreadTime {
  int64_t outside = 0, in_regions = 0;
  bool whole = true;  // else recording ended before, so there was more
  int64_t all() const { return outside + in_regions; }
};

int64_t in_code(const Region &region);
int64_t in_code(const Run &run);
bool meets_regions(const Log &own);  // of the program, outside of all others
// Processor time of a thread until now, outside of the regions that it met.
int64_t processor_time_outside(const Log &own, int64_t now);

int64_t time_outside(const Log &own, int64_t start, int64_t end);  // the same by the wall clock
// From `start` to `end`; regions that overlap count once, and those that are not over count until `end`.
ProgramTime divide_time(const std::vector<Records *> &threads, int64_t start, int64_t end);
