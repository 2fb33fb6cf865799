// The functions of gcc's runtime, before which those of this folder stand.
#pragma once
#include <cstdint>

#include "callers.hpp"

// Both look the name up, which takes the loader's lock: once for each function, by a static in the caller.
void *own_function(const char *name);  // of the runtime; the program ends where it has none

// LLVM's function, where the program's call would reach that one if this library were not there; else null.
// The first call of all chooses the runtime that is recorded: the one which the code of this place calls.
void *llvms_function(const char *name, const void *place);

// All code, where every module of the program calls the same runtime. Modules that a program opens may each have one of
// their own, as Python's wheels do: then the code of the module that called first.
extern CodeRange recorded_callers;
void *others_function(const char *name, const void *place);  // null where the module calls the recorded runtime

// Which function has the call in the recorder's place, unrecorded, or null. A runtime knows its own threads alone, so
// no call may reach another one than without the recorder.
inline void *passed_on(void *llvms, const char *name, const void *place) {
  if (__builtin_expect(!llvms && recorded_callers.has(place), true)) return nullptr;
  return llvms ? llvms : others_function(name, place);
}

// Within a function of this name: the runtime's own.
#define OWN(name) static const auto own_##name = reinterpret_cast<decltype(&name)>(own_function(#name))

// First in a function of this name, with its arguments: where LLVM's runtime is to answer, which calls the recorder by
// itself, or one of gcc's that is not recorded, that one is called in its place, as from the program.
// A tail call, so that no frame of the recorder lies between: LLVM's runtime reads the program's place off the stack.
// Nothing that has a destructor may come before it.
#define PASS_ON(name, ...)                                                         \
  static void *const llvms = llvms_function(#name, PLACE);                         \
  auto others = reinterpret_cast<decltype(&name)>(passed_on(llvms, #name, PLACE)); \
  if (__builtin_expect(others != nullptr, false)) __attribute__((musttail)) return others(__VA_ARGS__)
#define ENTER(name, ...)      \
  PASS_ON(name, __VA_ARGS__); \
  OWN(name)

#define ENTRY extern "C" __attribute__((visibility("default")))
// In a function before the runtime's itself: in a helper it would be a place of the recorder, unless inlined.
#define PLACE __builtin_return_address(0)  // in the program, behind its call
