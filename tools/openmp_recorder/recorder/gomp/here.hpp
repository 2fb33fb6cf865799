// What the calling thread is in: gcc's runtime tells it nobody.
#pragma once
#include <omp-tools.h>

#include <cstdint>

#include "log_head.hpp"

// One for each thread, and its own: a handler of a signal must not use it. It lies in storage that is there when the
// thread begins, so keep it small and without constructors.
struct Here {
  ompt_data_t *task;  // that runs; of an implicit one the number is the log's
  bool is_final, in_team;
  bool in_divided;  // a loop or sections, whose end is not told yet
  ompt_work_t divided;
  int64_t step;  // of the loop
  unsigned counts;  // loops within each other that `ordered` names
  void **copied;  // where the team's threads find the data of `copyprivate`
  // Copies of what the region had: its team lies on the stack of the thread that began it, and is gone by then.
  bool has_left;  // a region, whose end is not told yet
  ompt_data_t left;
  const void *left_place;
  void *region;  // that the thread began, where it ends by a call of its own
  const ThreadLog *log;  // of which all this is
};

extern __attribute__((tls_model("initial-exec"))) __thread Here this_here;
// All threads share it, so nobody may write to it: its 0 stands for the thread's own implicit task (`number_in`).
extern ompt_data_t implicit_task;  // for each: LLVM's runtime has them without a number too

// Due before the thread's next part, and when the thread ends. Until then it may still run tasks in that barrier.
void tell_left(Here &own);  // that the region is over that it has left
Here &begin_here(bool in_a_part);  // the thread's first call, or its first after a fork

// Call it before a thread's first callback: the first record of a thread must be that its initial or implicit task
// begins. The reference holds as long as the thread lives.
inline Here &here(bool in_a_part = false) {
  bool is_known = __builtin_expect(thread_log && this_here.log == thread_log, true);
  return is_known ? this_here : begin_here(in_a_part);
}

unsigned threads_here();  // of the team
unsigned most_threads_here();  // of a region that asks for no number

using TellCreation = void (*)(ompt_data_t *, const ompt_frame_t *, ompt_data_t *, int, int, const void *);
// Set once, while recording begins.
extern TellCreation tell_creation;  // with its call path, where these are recorded
