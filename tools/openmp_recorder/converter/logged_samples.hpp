// The samples that a log has of each thread, with the calls on its stack, each list of calls once.
#pragma once
#include <array>
#include <cstdint>
#include <map>
#include <string>
#include <vector>

#include "log_form.hpp"
#include "logged_paths.hpp"

struct Sample {
  uint64_t order;  // place among the records of all threads
  uint32_t stack;  // its number
  uint32_t stands_for;  // microseconds of the thread's processor time
  uint32_t number;  // of what it interrupted, from 1 on; 0 where the thread slept
  int64_t took;  // nanoseconds of the recorder
  bool slept;  // for so long, and took no processor time
};

using Registers = std::array<uint64_t, log_form::general_registers>;

// Where a sample interrupted a thread: before this instruction, at this time of the wall clock.
struct Interrupted {
  unsigned thread;
  int64_t wall;
  uint64_t code;
  Registers registers;
  uint32_t stands_for;
};

class Stacks {
 public:
  std::vector<Interrupted> interrupted;
  uint32_t number(const Calls &calls);
  const std::vector<Calls> &all() const { return stacks; }  // places behind calls, from the innermost one outwards

 private:
  std::vector<Calls> stacks;
  std::map<Calls, uint32_t> numbers;
};

// Of one thread, in the order of time. What is damaged there is left out, with all that follows it.
std::vector<Sample> read_samples(const std::string &path, const log_form::Head &head, Stacks &stacks, unsigned thread);
