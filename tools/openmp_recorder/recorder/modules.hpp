// What the modules of the process call of each other.
#pragma once
#include <string>
#include <vector>

#include "log_form.hpp"

// Whether one module calls all of these functions and has none of them itself.
bool one_module_calls(const std::vector<std::string> &names);

// What code of gcc's does that LLVM's runtime does not see. gcc hands `detach` to `GOMP_task` in an argument that
// LLVM's runtime does not take. Its `target` is run by gcc's own runtime, which waits for no task of LLVM's.
inline uint32_t unseen_of_gcc() {
  uint32_t unseen = 0;
  if (one_module_calls({"GOMP_task", "omp_fulfill_event"})) unseen |= log_form::unseen_detach;
  if (one_module_calls({"GOMP_task", "GOMP_target_ext"})) unseen |= log_form::unseen_target;
  return unseen;
}
