// The calls on a thread's stack at any instruction, by the unwind tables that the compiler left. A handler of a signal
// may call it: it takes no lock and no memory, and reads the stack between two bounds alone. A table that says
// something else than compilers write ends the walk.
#pragma once
#include <array>
#include <cstdint>

namespace frames {
constexpr unsigned registers = 17, stack_pointer = 7, instruction = 16;  // as DWARF numbers them

// A register whose value is lost is 0.
struct State {
  std::array<uint64_t, registers> values;
};

// From the lowest address that may be read to behind the highest one.
struct Stack {
  uint64_t lowest, end;
};

// Addresses outwards, from the instruction itself on: of callers that behind their calls. How many there are.
// `out` must have room for `most`, and the memory between the bounds must be mapped. Only for the stack of the calling
// thread: frames of another one change meanwhile.
unsigned walk(State state, const Stack &stack, uint64_t *out, unsigned most);

// The tables of a program's code are looked for by this function, where the system has it; it takes no lock.
bool are_known();
}  // namespace frames
