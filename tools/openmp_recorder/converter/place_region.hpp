// A region of the whole program in the place where a task met it.
#pragma once
#include "run.hpp"

// Each of its phases is a group, and each part a task there. Once: the task that met it is forgotten then.
std::vector<Part> place_region(Region &region);

// The same of these parts, in the order of their phases, at the end of a task.
void place_parts(const std::vector<Part> &parts, Task &owner, const void *code);

struct Moment {  // of a thread
  int64_t at = 0;  // on the wall clock
  uint16_t worker = 0;
};

// When the first of the parts of this one's phase began; `otherwise` where that is not known.
Moment begin_of_phase(const std::vector<Part> &parts, size_t one, const EventList &events, Moment otherwise);
void put_empty_segment(EventList &events, Task &t, unsigned segment, Moment when);
// What the owner does between its groups, and between the parts that it makes there, takes no time, from the segment
// after this one on: at the first moment, and on the thread that is first in a later phase, as that runs nothing then.
void time_placed(const std::vector<Part> &parts, Task &owner, unsigned segment, Moment first, EventList &events);

inline void add_step(Task &t, Step step) {  // at its end, and counts it
  t.steps.push_back(step);
  t.segment += ends_a_segment(step);
  t.children += step.kind == Kind::Create;
}
void take_over_steps(Task &into, Task &from);  // at its end: what the other one made is made there
