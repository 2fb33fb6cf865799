// The registers of a thread that a signal interrupted.
#pragma once
#include <ucontext.h>

#include "frames.hpp"

#if defined(__x86_64__)
// In the handler too: it copies, and calls nothing.
inline frames::State registers_of(const ucontext_t &context) {
  constexpr int by_dwarf[frames::registers] = {REG_RAX, REG_RDX, REG_RCX, REG_RBX, REG_RSI, REG_RDI,
                                               REG_RBP, REG_RSP, REG_R8,  REG_R9,  REG_R10, REG_R11,
                                               REG_R12, REG_R13, REG_R14, REG_R15, REG_RIP};
  frames::State state{};
  for (unsigned i = 0; i < frames::registers; i++)
    state.values[i] = static_cast<uint64_t>(context.uc_mcontext.gregs[by_dwarf[i]]);
  return state;
}
#endif
