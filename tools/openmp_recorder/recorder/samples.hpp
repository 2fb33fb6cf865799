// What a thread runs, by samples: a timer of its own processor time sends it a signal, and the handler writes down the
// calls on its stack. Only where this library stands before the system's, so that it sees a program take the signal.
#pragma once
#include <signal.h>
#include <ucontext.h>

#include <atomic>
#include <string>

#include "frames.hpp"
#include "log_form.hpp"
#include "log_head.hpp"

// Of one thread. Its own code and its own handler alone use it, so `is_busy` is all that keeps them apart; it is never
// given back, since a signal that was sent before may still come.
class Samples {
 public:
  // Up to `end_timer` for the owning thread alone, and not in a handler.
  void begin_file(const std::string &path);  // from now on they are there however the program ends
  void begin_thread();  // the calling one; another one may have been before
  void end_thread();
  void end_timer();  // any thread may call it
  // In the handler no malloc, no lock, no stdio, and no thread-local object that is built at first use: the thread may
  // be inside any of them. It interrupts the owner alone, since the timer's signal goes to one thread.
  void take(const siginfo_t &signal, const ucontext_t &context);  // in the handler
  // May run inside of a program's handler. Where it interrupts a sample under way it writes nothing (`is_busy`).
  void put_wait(const void *function, int64_t nanoseconds);  // the thread slept in this function of the system
  bool has_file() const { return path[0]; }

 private:
  char path[512] = {};
  // Null or mapped whenever `is_busy` is false: without one nothing is written.
  char *window = nullptr;  // mapped: of the file, or before there is one, of memory
  size_t used = 0;
  uint64_t windows = 0;  // of the file, before this one
  unsigned each = 1, since = 0;  // of so many signals one is written, where memory alone has them
  volatile bool is_busy = false, is_closed = false;  // one thread's code and its handler alone use them
  // While it stands a signal finds nothing to write to. Its fences keep the compiler from moving what is done to the
  // window out of it; a thread's own handler sees what its processor has done so far.
  class Busy {
   public:
    explicit Busy(Samples &of) : samples(of) {
      samples.is_busy = true;
      std::atomic_signal_fence(std::memory_order_seq_cst);
    }
    ~Busy() {
      std::atomic_signal_fence(std::memory_order_seq_cst);
      samples.is_busy = false;
    }
    Busy(const Busy &) = delete;

   private:
    Samples &samples;
  };
  // Atomic, since another thread may end it: whoever exchanges the number for -1 deletes the timer, once.
  std::atomic<int> timer{-1};
  frames::Stack stack{};
  uint64_t lowest = 0;  // of the thread's stack

  // What other programs took of the processor since then is no work of the recorder: costs leave it out, or count it,
  // by themselves. By the processor's clock costs have no use for it, and its readings would be the program's.
  struct Began {
    static int64_t own_time() { return costs_by_processor ? wall_time() : processor_time(); }
    int64_t wall = wall_time(), own = own_time();
  };

  bool make_room();
  void keep_half();
  bool is_to_write(const siginfo_t &signal);
  bool may_write() const { return !is_busy && !is_closed && window && !is_stopped(); }
  log_form::RawSample &sample_here(const ucontext_t &context);
  void publish(log_form::RawSample &sample, const Began &began);
};

class ThreadLog;
// Called with the lock of `make_thread_log` held, and takes the list's lock inside: never the other way round.
void sample_thread(ThreadLog &log, const std::string &folder);  // the calling thread, whose log that is
void leave_samples(ThreadLog &log);  // the calling thread ends
extern __attribute__((tls_model("initial-exec"))) __thread Samples *own_samples;  // of the calling thread, or none
