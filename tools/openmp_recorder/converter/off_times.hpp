// How long threads were off their processors while they ran segments, and what they ran there by samples, by segment of
// the text of the whole program.
#pragma once
#include <cstddef>
#include <cstdint>
#include <string>
#include <vector>

#include "task.hpp"

struct Region;

// The thread gave its processor up, or another program had it, in nanoseconds.
struct OffTime {
  const Task *task;
  unsigned segment;  // counted within the task
  int64_t slept, preempted;
  uint32_t stack = 0, stands_for = 0;  // of a sample: the number of its calls, and microseconds
  uint32_t sample = 0;  // and of what it interrupted
  bool asleep = false;  // then
  uint32_t in_stretch = none;  // of a task that is released: the number that it has in its stretch
  uint32_t number = none, pieces = 1;  // of the segment in the text, once that is written, and of its task
};

class OffTimes {
 public:
  // Of tasks that are there, in the order in which they were seen: of those that were not released, or of a stretch
  // that is read again.
  std::vector<OffTime> all;
  std::size_t seen() const { return gone + all.size(); }
  void add(const OffTime &one);
  // Those since so many had been seen that are of a task whose segments have become another one's.
  void move(std::size_t since, const Task &of, const Task &to, unsigned first_segment);
  // Those of tasks that are released, and of the first segments of the program's root, which are those of the
  // stretch's.
  void release(const Task &root, const Task &of_stretch);
  // While the text is read again, stretch by stretch, and then what was not released.
  void begin_again();
  void take_back(std::size_t stretch, const std::vector<Task *> &tasks);
  void go_on();
  void number(const Region &region);  // by the part of its text that was written last
  const std::vector<OffTime> &in_text() const { return numbered; }

 private:
  std::size_t gone = 0;  // of `all`
  std::vector<std::vector<OffTime>> released;  // by stretch
  std::size_t read = SIZE_MAX;  // the stretch that is read again
  std::vector<OffTime> rest, numbered;
};

// `SEGMENT SLEPT PREEMPTED` of each segment with such time, in their order. The pieces of a chunk share its time.
std::string off_lines(const Region &region, OffTimes &times);
