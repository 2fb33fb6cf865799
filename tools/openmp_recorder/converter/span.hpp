// The span of a region, added up by the recorder itself; nothing about it is proved.
#pragma once
#include "column.hpp"
#include "run.hpp"

// When the last task of each type ended that named a location, among those that one task makes. For one task after the
// other: what an earlier one left is not looked at.
class LocationEnds {
 public:
  struct Ends {
    uint64_t maker = 0;  // in the order in which they came here
    int64_t in = 0, set = 0, other = 0;
  };
  explicit LocationEnds(size_t expected = 0) { locations.resize(expected, {}); }
  void begin_task() { makers++; }
  Ends &at(const Item &item);

 private:
  Column<Ends> locations;  // by their numbers
  uint64_t makers = 0;
};

// The ends of the parts of one text, one after the other. No part has a task that a later one's root waits for.
struct RootEnds {
  int64_t now = 0, below = 0;  // of the root's code, and of all below it
  void add(const Task &root);
  int64_t span() const { return below; }
};

int64_t span_of(Region &region);  // in nanoseconds
int64_t span_of(Region &region, LocationEnds &ends);  // the same, of one after the other
