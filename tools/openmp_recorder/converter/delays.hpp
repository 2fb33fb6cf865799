// How long threads that could have begun their code in a region, or have gone on behind its barrier, took to do so,
// added up by kind of segment once the times of a part of the text are known.
#pragma once
#include <map>
#include <vector>

#include "events.hpp"
#include "segment_table.hpp"

class Delays {
 public:
  // A part of the text, whose first segment is the last one of the part before.
  void take(const Region &region, Region &part, const Events &events, const std::vector<SegmentTable::Around> &around);
  void put(const Events &events, Object &line);  // where they are known, after the last part

 private:
  struct Sums {
    int64_t all = 0, starting = 0;  // of each as much as a runtime takes
  };
  std::map<uint32_t, Sums> sums;  // by kind
  bool are_known = true;
  bool is_left = false;  // the last segment of the part before, which ends in the next one
  uint32_t kind_left = 0;
  int64_t ready_left = 0;
  void add(uint32_t kind, int64_t delay);
};
