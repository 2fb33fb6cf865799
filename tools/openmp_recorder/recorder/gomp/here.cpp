#include "here.hpp"

#include "callbacks.hpp"
#include "construct.hpp"
#include "callers.hpp"
#include "life.hpp"
#include "program_start.hpp"
#include "own.hpp"
#include "own_stack.hpp"
#include "system_calls.hpp"

__thread Here this_here;
ompt_data_t implicit_task = {0};
TellCreation tell_creation = on_create;

namespace {
// The process's beginning; how often its thread had lost its processor by then is known since the library was loaded.
// For the first thread only: the kernel's counts are those of one thread.
Look look_at_beginning() {
  Look load = look_at_load();
  return {{this_log().program_start, 0}, load.given_up, load.taken};
}

// What the recorder does while it begins is no code of the program: `met` is the look before.
void begin_initial(Here &own, const Look &met) {
  on_implicit_task(ompt_scope_begin, nullptr, nullptr, 1, 0, ompt_task_initial);
  own.log = own_log();
  if (own.log && !is_stopped() && is_first_thread()) thread_log->look_back(look_at_beginning(), met, moment_now());
}

bool begin_runtime() {
  if (!records_asked()) {
    stop_log(log_form::Stopped::End);
    return true;
  }
  runtime_begins();
  // Clocks first, then both ranges of code, then the log: a record needs all of them.
  find_runtime(own_function("GOMP_parallel"));
  find_recorder();
  begin_recording(make_a_record, 0);
  if (this_log().call_paths) tell_creation = on_create_by_path;  // by the calls, which lead to the call
  else find_lines();
  return true;
}

// The runtime ends threads that the next region does not need, and makes others later: these go on with their logs.
struct Leaving {
  bool is_of_runtime = false;
  ~Leaving() {
    // Not of threads that the program made. Without a log, or with one from before a fork, there is nothing to hand on.
    if (!is_of_runtime || !thread_log || this_here.log != thread_log) return;
    tell_left(this_here);
    this_here = {};
    leave_thread_log();
  }
};
thread_local Leaving leaving;
}  // namespace

void tell_left(Here &own) {
  if (!own.has_left) return;
  own.has_left = false;
  on_sync(ompt_sync_region_barrier_implicit_parallel, ompt_scope_end, nullptr, &implicit_task, own.left_place);
  on_implicit_task(ompt_scope_end, &own.left, nullptr, 0, 0, ompt_task_implicit);
}

Here &begin_here(bool in_a_part) {
  KeepErrno kept;
  const Look met = in_a_part ? Look{} : look_now();
  // Threads that meet the runtime meanwhile wait here for the first one; `begin_runtime` must not lead here.
  static const bool has_begun = begin_runtime();
  if (!has_begun || (is_stopped() && this_here.task)) return this_here;
  this_here = {};
  this_here.task = &implicit_task;
  on_thread_begin(in_a_part ? ompt_thread_worker : ompt_thread_initial, nullptr);
  if (in_a_part) this_here.log = own_log();
  else begin_initial(this_here, met);
  // The first use in a thread registers the destructor, which allocates.
  leaving.is_of_runtime = in_a_part;
  return this_here;
}

// Both ask the recorded runtime: by name the call could reach another one, with teams of its own.
unsigned most_threads_here() {
  static const auto count = reinterpret_cast<int (*)()>(own_function("omp_get_max_threads"));
  return static_cast<unsigned>(count());
}

unsigned threads_here() {
  static const auto count = reinterpret_cast<int (*)()>(own_function("omp_get_num_threads"));
  return static_cast<unsigned>(count());
}
