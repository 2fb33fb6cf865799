// The clock that costs are read on, what reading it takes, and the other clock.
#pragma once
#include <time.h>

#include <cstdint>
#include <optional>

struct Clock {
  bool of_processor = false;  // of the calling thread; else the wall's
  int64_t reading = 0;  // what reading it takes, on itself
  bool leaves_out = false;  // of the wall's what other programs took of the thread's processor
};

int64_t read_clock(clockid_t id);  // in nanoseconds
inline int64_t wall_time() { return read_clock(CLOCK_MONOTONIC); }
inline int64_t processor_time() { return read_clock(CLOCK_THREAD_CPUTIME_ID); }  // of the calling thread
inline int64_t time_of_day() { return read_clock(CLOCK_REALTIME); }  // since 1970

constexpr int64_t shortest_switch = 1000;  // nanoseconds: none takes the thread off its processor for less
constexpr int64_t rates_apart = 8192;  // by less than that part the kernel's clocks may go at different rates

// How far both clocks of a thread went until one of its records, since the thread read both before.
struct Passed {
  bool slept = false;  // the thread gave its processor up: it slept, or waited for something
  int64_t wall = 0, processor = 0;
  bool taken = false;  // the kernel gave its processor to another thread
  int64_t put_off = 0;  // where it did both: how long it could have run, and others did
  int64_t off() const { return wall > processor ? wall - processor : 0; }
  bool preempted() const { return taken || !slept; }
  bool is_off() const { return off() >= shortest_switch && off() > wall / rates_apart; }
  bool differ() const { return off() > wall / 20; }
};

constexpr int64_t far_apart = 50000;  // of two readings of both clocks

struct Times {
  int64_t wall = 0, processor = 0;
};

// Both clocks of the calling thread, how often it had lost its processor, in both ways, and how long it was put off.
struct Look {
  Times at;
  long given_up = 0, taken = 0;
  int64_t put_off = 0;
};
Look look_now();
Passed passed_between(const Look &first, const Look &last);

// The clock that costs are not read on is read where 50 us have passed since, and the processor's takes time to read;
// or at each call, where callers know that the thread was switched out. Where costs are read on the wall clock, callers
// leave the other one out.
class BothClocks {
 public:
  explicit BothClocks(bool of_processor, int64_t at_least_apart = far_apart)
      : by_processor(of_processor), apart(at_least_apart) {}
  void begin_at(const Look &first);  // what passes from then on counts until the next record
  std::optional<Passed> at_record(const Times &now);
  void wait_begins(const Times &now);  // what passes until its end is no code's
  void wait_ends(const Times &now);
  void forget_switches();  // until now: those after it are told apart
  int64_t processor_at_look() const { return last.processor; }  // the clock of the processor, as it was read last
  int64_t off_since_look() const;

 private:
  bool by_processor;
  int64_t apart;
  Times last, at, before_wait;  // as both were read last; at the call of the recorder; passed before a wait
  long given_up = 0, taken = 0;  // how often the thread lost its processor in both ways, so far
  int64_t put_off = 0;  // as it was read last
  bool is_far(const Times &now);
  void count_switches(Passed &since);
};
