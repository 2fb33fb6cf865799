// Where a construct of gcc's code stands.
#pragma once
#include "callers.hpp"

using Code = void (*)(void *);

// Of the program's own file, where that has lines of source; else empty. Written while recording begins.
extern CodeRange code_with_lines;
void find_lines();

// The function that gcc makes of a construct begins with the line of its directive, or of the statement below, while
// the call of the runtime may have that of a statement around it. Without lines the call is a better place: its
// function has a name more often. A place is behind its instruction, as that of a call is.
inline const void *place_of(Code code, const void *call) {
  const char *begin = reinterpret_cast<const char *>(code);
  return code_with_lines.has(begin) ? begin + 1 : call;
}
