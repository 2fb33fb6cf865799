// What no recorder writes: a log with such things has been damaged since, and is refused. What remains possible may be
// wrong all the same; it makes no reader fail.
#pragma once
#include <cstdint>
#include <stdexcept>
#include <string>

#include "log_form.hpp"
#include "record_kind.hpp"

class DamagedLog : public std::runtime_error {
 public:
  explicit DamagedLog(const std::string &what) : std::runtime_error(what) {}
};

constexpr int64_t longest_time = int64_t{1} << 53;  // nanoseconds, a hundred days

void look_at_head(const log_form::Head &head);

// The records of one thread, in their order.
class RecordsLookedAt {
 public:
  explicit RecordsLookedAt(const log_form::Head &head);
  // `wide` is the number of 8 bytes that some kinds have in the place of two tasks' numbers.
  void look_at(const log_form::RawRecord &record, int64_t processor, uint64_t wide);
  // Whether a record by the wall clock may have this time, which is then that of the record before.
  bool takes(uint64_t ticks) {
    if (ticks + back < first || ticks > first + most || ticks + back < last) return false;
    last = ticks;
    return true;
  }

 private:
  uint64_t first, last;  // ticks: of the log, and of the record before
  uint64_t most, back;  // ticks: of a run, and how far a record may be before the one before it
  bool by_processor;
  int64_t last_processor = 0;
  int64_t stood_still = 0;
  uint64_t waited = 0;  // ticks
  bool is_length(int64_t time) const;  // of a part of the run
  void look_at_times(uint64_t ticks, int64_t processor);
  void add_up(int64_t stands_still);
  void add_wait(float ticks);  // for a lock
};
