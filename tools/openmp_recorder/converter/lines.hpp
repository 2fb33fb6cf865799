// Whether the compiler kept a line for each construct.
#pragma once
#include <set>

#include "run.hpp"
#include "source.hpp"

struct Constructs {
  std::set<const void *> tasks, waits;
  void add(const Region &part);  // those of its tasks
};

// Remarks constructs that are reported at a line which cannot be theirs.
void remark_lines(Region &region, const Places &places);
