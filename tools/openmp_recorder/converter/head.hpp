// The head of a text: what it was recorded from, how the time divides, locks, and what the recording lacks.
#pragma once
#include <string>
#include <vector>

#include "options.hpp"
#include "program_time.hpp"
#include "run.hpp"
#include "source.hpp"

struct Recording {
  std::string program, date;
  uint64_t regions = 0;  // with tasks
  ProgramTime time;
  ThreadTime threads{};
  const WholeProgram *whole = nullptr;  // where the text is of the whole program
};

// What the parts of each phase cost with their tasks, but for the longest of it, and without chunks of loops.
struct Beside {
  size_t parts = 0;
  int64_t cost = 0;
  void add(const Beside &more) { parts += more.parts, cost += more.cost; }
};

Beside beside_each_other(const std::vector<Part> &parts);
std::string head_of(const Region &region, const Recording &recording, const Options &options, const Places &places);
void remark_locks(Region &region);  // where they take a hundredth of the region's work
void remark_clocks(Region &region);  // where what they differ by is a twentieth of the work, or at once of the span
