#include "ticks.hpp"

#include <atomic>
#include <cstdio>
#include <cstring>

#include "clocks.hpp"

bool by_time_stamp = false, costs_by_processor = false;

namespace {
std::atomic<uint64_t> last_read{0};

// The kernel takes it for the wall clock only where it found it constant, and alike on all processors.
// It reads a file by stdio: only while recording begins.
bool is_the_kernels_clock() {
  char name[32] = "";
  FILE *file = fopen("/sys/devices/system/clocksource/clocksource0/current_clocksource", "re");
  if (!file) return false;
  bool is_read = fgets(name, sizeof name, file);
  fclose(file);
  return is_read && !strcmp(name, "tsc\n");
}
}  // namespace

// No two reads are alike, so the order of records is total; the price is a word that all threads write to.
uint64_t later_wall_time() {
  uint64_t now = static_cast<uint64_t>(wall_time()), before = last_read.load(std::memory_order_relaxed), later;
  do {
    later = now > before ? now : before + 1;
  } while (!last_read.compare_exchange_weak(before, later, std::memory_order_relaxed));
  return later;
}

// Before any record and any other thread: both numbers are read without a lock from then on.
void choose_clocks(bool may_be_time_stamp, bool by_processor) {
  costs_by_processor = by_processor;
#if defined(__x86_64__)
  by_time_stamp = may_be_time_stamp && is_the_kernels_clock();
#else
  by_time_stamp = may_be_time_stamp && false;
#endif
}

log_form::Pair read_pair() {
  log_form::Pair nearest{};
  uint64_t apart = UINT64_MAX;
  for (int tries = 0; tries < 5; tries++) {
    uint64_t before = read_ticks();
    int64_t wall = wall_time();
    uint64_t after = read_ticks();
    // The shortest try was interrupted least.
    if (after - before >= apart) continue;
    apart = after - before;
    nearest = {before + apart / 2, wall};
  }
  return nearest;
}
