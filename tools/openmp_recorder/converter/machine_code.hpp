// What instructions do with memory, by objdump: which address one used, where the registers behind it are known.
#pragma once
#include <map>
#include <optional>
#include <string>
#include <vector>

#include "logged_samples.hpp"
#include "modules_of_run.hpp"

struct MemoryUse {
  uint64_t code;  // of the instruction, as the module's file has it
  int base = -1, index = -1;  // numbers of registers
  unsigned scale = 1;
  uint64_t displacement = 0;
  bool of_file = false;  // then that is an address of the file
  bool writes = false;
  bool is_atomic = false;  // what it takes is the instruction's own too
};

// `lock addq $0x1,0x10(,%rcx,8)`: the memory that it uses, and whether its registers are still the same behind it;
// nothing where it uses none, or one that only the processor knows.
std::optional<MemoryUse> memory_use(const std::string &instruction);
unsigned bytes_at(const std::string &instruction);  // how many it uses there: 16, 32 or 64 of a vector, else 8
int written_register(const std::string &instruction);  // -1 where it writes none, or none that is known
bool goes_elsewhere(const std::string &instruction);  // as jumps and calls do

// How an instruction changes a register: by a number of bytes, and by another register so often.
struct Increment {
  int64_t bytes = 0;
  int by = -1;
  int64_t times = 1;
};
std::optional<Increment> step_of(const std::string &instruction, int of);  // nothing where it sets it otherwise

// What a conditional jump looks at: a register, and another one, or a number.
struct Compared {
  int one = -1, other = -1;
  int64_t number = 0;
};
std::optional<Compared> compared(const std::string &instruction);
std::optional<uint64_t> jump_target(const std::string &instruction);  // where that is known

using Instructions = std::map<uint64_t, std::string>;  // by their addresses in the file
Instructions disassembled(const ModuleOfRun &module, uint64_t first, uint64_t end);
// What a thread used that was interrupted before an instruction, by the few around it: the last one before it first.
std::vector<MemoryUse> used_near(const Instructions &all, uint64_t code);
// The instruction with which the loop around this one looks at memory, where it does nothing else: a thread waits in it
// until another one writes there. Nothing where the loop changes anything itself, but a lock that it tries to take.
std::optional<uint64_t> waits_in_loop(const Instructions &all, uint64_t code);
uint64_t address_of(const MemoryUse &use, const Registers &registers, const ModuleOfRun &module);
