// The call paths of the run, with their numbers: each stands in a file of the log before a record names it.
#pragma once
#include <cstdint>
#include <string>
#include <vector>

// While the log is made, before any record.
void begin_paths(const std::string &folder);
// Any thread, under a lock, and for a new path with a write to a file.
uint64_t number_of_path(const std::vector<uintptr_t> &calls);  // from 1; 0 where there is no room for more
void forget_paths();  // in the child after a fork
