// Cache lines that threads use at the same time while one of them writes it, by samples: each such use waits for the
// line to come from another processor.
#pragma once
#include <map>
#include <vector>

#include "logged_samples.hpp"
#include "modules_of_run.hpp"

// An address that a thread used shortly before a sample, and the place behind the instruction.
struct Used {
  size_t sample;
  uint64_t address;
  unsigned thread;
  int64_t wall;
  bool writes;
  const void *place = nullptr;
  bool is_atomic = false;
};

// Of a sample the place behind the instruction that used such a line, null where it used none; and which part of its
// time is of such uses and more than another instruction of the function takes. Or the place behind the one that looks
// in a loop, where the thread waited until another one wrote.
struct Contended {
  const void *place = nullptr;
  double beyond = 1;
  bool is_atomic = false;
  bool is_wait = false;
  const void *loop = nullptr;  // behind the last instruction of that around it, if it goes on by a line or more
  bool synchronises = false;  // its function has an atomic operation, as those that take a lock
};

// A line is contended where two threads used it at once and one wrote it: then all its uses are, while others run too.
std::vector<bool> are_contended(const std::vector<Used> &all);
// By place, the part of its uses that other threads' uses make wait: how often samples of other threads are of the same
// line at once, by how often those of the own thread are. It tells of lines too for which there are few samples.
std::map<const void *, double> shared_parts(std::vector<Used> all);
// The part of the time of some samples that is more than as many other instructions of their code take, by the samples
// of these; most instructions have none. All of it where there are no others.
double beyond_others(const std::vector<Interrupted> &some, const std::vector<Interrupted> &others, size_t instructions);
std::vector<Contended> contending(const Stacks &stacks, const ModulesOfRun &modules);
