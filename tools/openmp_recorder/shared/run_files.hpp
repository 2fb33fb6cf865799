// The names of the folders that the processes of a run write.
#pragma once
#include <cstdint>
#include <string>

std::string name_of_rank(const std::string &name);  // NAME.rank3 of such a process of MPI's, where there are several

// NAME.spanprof, and where that is there from an earlier run, NAME-2.spanprof and so on. A child, or another program of
// a run that began then, has its own name.
std::string free_folder(const std::string &name, const std::string &own, bool is_child, int64_t began);
