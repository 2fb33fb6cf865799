// When chunks of a loop ran that are written as one: from where the first began to where the last ended. What their
// part did between them has no times of its own.
#pragma once
#include <unordered_map>
#include <unordered_set>
#include <vector>

#include "run.hpp"

class JoinedTimes {
 public:
  JoinedTimes(bool of_a_timed_text, const OffTimes &off) : timed(of_a_timed_text) {
    for (const OffTime &one : off.all) with_off.insert(one.task);
  }
  void join(const Task &first, const Task &last) {
    if (timed) lasts[&first] = &last;
    if (timed || with_off.count(&last)) firsts[&last] = &first;
  }
  void leave_out(const Task &part, unsigned segment) {  // in ascending order
    if (timed || !with_off.empty()) left_out[&part].push_back(segment);
  }
  void apply(EventList &events) const;
  void apply(OffTimes &off) const;

 private:
  bool timed;
  std::unordered_set<const Task *> with_off;
  std::unordered_map<const Task *, const Task *> lasts, firsts;
  std::unordered_map<const Task *, std::vector<unsigned>> left_out;  // segments, numbered as they were
};
