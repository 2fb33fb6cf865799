#include "program_start.hpp"

#include <pthread.h>
#include <unistd.h>

#include <algorithm>
#include <cstdio>

#include "own_stack.hpp"

namespace {
Look at_load;

// In the child of a fork the one thread is the first of its process, and looks again.
void look_at_start() {
  if (is_first_thread()) at_load = look_now();
}

__attribute__((constructor)) void library_is_loaded() {
  look_at_start();
  pthread_atfork(nullptr, nullptr, look_at_start);
}

// How long ago the process began, by the kernel's ticks: at most one of them too much. 0 where it does not tell.
// stdio and malloc: while recording begins, and not in a handler.
int64_t age_in_ticks(int64_t tick) {
  FILE *file = fopen("/proc/self/stat", "r");
  if (!file) return 0;
  unsigned long long start = 0;
  int fields = fscanf(file,
                      "%*d (%*[^)]) %*c %*d %*d %*d %*d %*d %*u %*u %*u %*u %*u %*u %*u "
                      "%*d %*d %*d %*d %*d %*d %llu",
                      &start);
  fclose(file);
  return fields == 1 ? read_clock(CLOCK_BOOTTIME) - static_cast<int64_t>(start) * tick : 0;
}
}  // namespace

const Look &look_at_load() { return at_load; }

// It began before this library was loaded, and at least as long ago as it has computed.
int64_t program_start() {
  int64_t tick = 1000000000 / sysconf(_SC_CLK_TCK), age = age_in_ticks(tick), now = wall_time();
  int64_t least = std::max(read_clock(CLOCK_PROCESS_CPUTIME_ID), at_load.at.wall ? now - at_load.at.wall : 0);
  if (age > 0) least = std::clamp(least, std::max<int64_t>(age - tick, 0), age);
  return now - least;
}
