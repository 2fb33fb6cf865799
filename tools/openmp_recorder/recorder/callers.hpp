// Which calls of the runtime come from the program itself.
#pragma once
#include <cstdint>

struct CodeRange {
  uintptr_t first = 0, end = 0;
  bool has(const void *code) const {
    auto address = reinterpret_cast<uintptr_t>(code);
    return first <= address && address < end;
  }
};

// Written while recording begins, before callbacks arrive, and read without a lock from then on.
extern CodeRange runtime_code, recorder_code;
CodeRange code_around(const void *code);  // of its module; an empty one where no module has it
void find_runtime(const void *function);  // the module of this function is the runtime
void find_recorder();  // whose functions stand before the runtime's
inline bool in_runtime(const void *code) { return runtime_code.has(code) || recorder_code.has(code); }  // not for none
// Whether it is where the runtime makes the tasks of a taskloop: their place is the loop's, which is recorded once.
bool makes_tasks_of_loop(const void *code);
// Both walk the stack by `backtrace`, which loads libgcc at its first call: not in a handler. Their callers set
// `is_slow`, so that the time is no code's.
const void *caller_in_program(const void *code);  // of a place inside the runtime; null where it cannot be known
const void *nearest_in_program();  // the place that called the runtime, from the stack; null without one
