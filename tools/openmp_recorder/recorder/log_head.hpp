// The log of the process, from its beginning to its end: its folder, its head, and its threads.
#pragma once
#include <errno.h>

#include <atomic>
#include <cstdint>
#include <string>

#include "thread_log.hpp"

struct Beginning {
  std::string folder;  // made with the first record
  bool is_child = false;
  uint32_t unseen = 0;
  int64_t program_start = 0;
  bool call_paths = false;  // of what creates tasks
};

// Before any record, with one thread running. In the child of a fork it keeps the clocks of the parent.
void begin_log(const Beginning &how, void (*call)());  // which makes a record, and nothing else
void mark_unseen(uint32_t more);
void lose_switches();  // what threads lose their processors to is estimated from now on: any thread
void set_time_of_beginning(uint64_t took);  // which is no code of the program
// Other threads may be in a callback meanwhile: what they still write lies in blocks of their own.
void end_log(log_form::HowEnded how);
void take_end_back();  // the program went on, and nothing more is told but its usage
void note_usage();  // so far: also now and then before the end, which a kill may come before; in handlers
// Any thread, several times and at once, but no handler: it may print.
void stop_log(log_form::Stopped why);  // the first reason stays
// Around a fork, of whose child the runtime tells the calling thread before the child has a log of its own: the pages
// of this one are the child's too.
// All three run on the forking thread, by pthread_atfork; the parent's other threads go on recording.
void leave_log();
void go_on_with_log();
void forget_log();  // in the child

const Beginning &this_log();
extern std::atomic<log_form::Stopped> log_stopped;
// The storage model of `thread_log` makes its first access in a thread one load, without a call that may allocate.
extern
    __attribute__((tls_model("initial-exec"))) __thread ThreadLog *thread_log;  // the calling thread's, once it is made
// Under a lock, with files made and memory allocated: only from callbacks, for the calling thread.
ThreadLog *make_thread_log();  // null where it cannot be made
void leave_thread_log();  // the thread ends, and another one may go on with it
// `begin_log` measures the ticks: until then one is a nanosecond, as it is on the wall clock.
double nanoseconds_of_tick();
int64_t wall_time_at(uint64_t ticks);
// Both from any thread and without a lock, while the process ends too.
void count_open_region(int more);
bool inside_a_region();  // any thread of the program
uint32_t new_region();  // from 1, in the order of time

// Whether a call needs no more than a record with the time-stamp counter, as most do; not where recording has stopped.
// A thread may see it late, and then writes a few more records into its block, which do no harm.
extern std::atomic<uint32_t> only_records;
inline log_form::Stopped why_unwritten() {
  bool is_full = errno == ENOSPC || errno == EDQUOT || errno == EFBIG;
  return is_full ? log_form::Stopped::Full : log_form::Stopped::Unwritable;
}
inline bool is_stopped() { return log_stopped.load(std::memory_order_relaxed) != log_form::Stopped::Not; }
inline ThreadLog *own_log() { return __builtin_expect(thread_log != nullptr, true) ? thread_log : make_thread_log(); }

inline Moment moment_now(After after = After::Others) {
  Moment now;
  now.at = read_ticks(after);
  if (costs_by_processor) now.processor = processor_time();
  return now;
}
