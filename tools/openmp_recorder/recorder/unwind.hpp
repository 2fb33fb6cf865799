// The calls that led to where the runtime called the recorder, by unwinding the stack, which takes microseconds.
#pragma once
#include <cstddef>
#include <cstdint>
#include <vector>

#include "log_form.hpp"

struct ReturnAddress {
  uint32_t above;  // the recorder's own, in bytes on the stack
  uintptr_t value;
};

// Outwards from the recorder's own: those inside the runtime, and then those of the program, up to the runtime that
// called the code of the task that runs, or to a function that is there before, with that.
struct CallStack {
  std::vector<ReturnAddress> all;
  std::vector<uintptr_t> path;  // those of the program; empty where it cannot be known
};

// `own` is where the recorder's return address stands, which is in the runtime.
// It allocates and takes locks of the loader: from callbacks alone, never in a handler (`frames.hpp` is for these).
// It may throw std::bad_alloc, which must not reach the runtime.
CallStack unwind_from(const char *own);
