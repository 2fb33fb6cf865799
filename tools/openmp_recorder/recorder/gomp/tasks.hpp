// Tasks: the runtime is handed a function and data of ours, in which those of the program are.
#pragma once
#include <omp-tools.h>

#include <cstdint>
#include <cstring>

#include "construct.hpp"
#include "here.hpp"

using Copier = void (*)(void *, void *);

enum Flags : unsigned {
  task_is_final = 2,
  task_depends = 8,
  loop_is_up = 1 << 8,
  loop_has_grainsize = 1 << 9,
  loop_is_deferred = 1 << 10,  // by its `if`
  loop_without_group = 1 << 11,
  loop_reduces = 1 << 12,
  task_is_detached = 1 << 13
};

// What stands in front of the program's data. The runtime writes into its first words: of a taskloop's task the bounds,
// of a detached one its event.
// It is copied as bytes and read on other threads, so it has no constructor and no pointer to itself. `written` must
// stay first. Once `run_task` has returned, its memory may be gone.
struct Head {
  uint64_t written[2];
  Code code;
  ompt_data_t task;
  const void *place;
  uint32_t start;  // of the program's data, from here
  int flags;  // as the tools interface has them
  unsigned words_written : 2;  // that are the program's
  unsigned is_final : 1, is_detached : 1;
  unsigned waits : 1;  // for what it depends on, before it begins
  unsigned is_told_at_start : 1;  // that it is made
  unsigned may_be_cancelled : 1;  // though the runtime would run it, since it has a copier
  void *data() { return reinterpret_cast<char *>(this) + start; }
};

// What is copied to make a task.
// On the stack of the thread that makes the task: the runtime calls the copier before the creating call returns.
struct Given {
  Head head;
  Copier copier;  // of the program's data; none where bytes are copied
  void *from;
  long bytes;
  void copy_to(void *to) const {
    auto *made = static_cast<Head *>(std::memcpy(to, &head, sizeof head));
    if (copier) copier(made->data(), from);
    else if (bytes) std::memcpy(made->data(), from, static_cast<size_t>(bytes));
  }
};

inline long aligned(long alignment) {
  constexpr long least = alignof(Head);
  return alignment < least ? least : alignment;
}
// The program's data keep the alignment that its compiler asked for: the runtime aligns the head by the same number.
inline uint32_t start_of_data(long alignment) {
  long to = aligned(alignment);
  return static_cast<uint32_t>((static_cast<long>(sizeof(Head)) + to - 1) & -to);
}

// The runtime calls it, on whatever thread runs the task; of a taskloop in place, several times with the same head.
void run_task(void *head);
// Before the runtime is handed the task: it copies the head with the number in it, and may run the task at once.
void tell_task(Here &own, Head &, void **depend);  // that it is made
void make_empty_task(void **depend, const void *place);
enum Cancelled { cancelled_region = 1, cancelled_group = 8 };
bool is_cancelled(Cancelled what);  // of the task that runs; a group also where its region is
