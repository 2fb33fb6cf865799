// The counter that gives the records of all threads their order: the processor's time-stamp counter where the kernel
// keeps the wall clock by it, since then it runs evenly and alike on all processors, and else the wall clock.
#pragma once
#include <cstdint>

#include "log_form.hpp"

#if defined(__x86_64__)
#include <x86intrin.h>
#endif

// Set once, before threads read them.
extern bool by_time_stamp, costs_by_processor;

uint64_t later_wall_time();  // than whatever another thread read before

// What has to be done before the counter is read. The runtime begins a task, or goes on after a wait, once it has seen
// what other threads did: so a task's start reads more than the ends that it needs. What a thread tells of itself comes
// before whatever others do for it, however early it is read.
enum class After { Others, Itself };

// The fence keeps the counter from being read before earlier loads are done: without it a task could seem to begin
// before the end that it waited for.
inline uint64_t read_time_stamp(After after) {
#if defined(__x86_64__)
  if (after == After::Others) _mm_lfence();
  return __rdtsc();
#else
  return static_cast<uint64_t>(after);  // it is not read there
#endif
}

inline uint64_t read_ticks(After after = After::Others) {
  return __builtin_expect(by_time_stamp, true) ? read_time_stamp(after) : later_wall_time();
}

void choose_clocks(bool may_be_time_stamp, bool by_processor);
log_form::Pair read_pair();  // both as near to each other as some tries get them
