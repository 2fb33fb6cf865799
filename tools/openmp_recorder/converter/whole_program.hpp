// The whole program as one region to write, once its records are read.
#pragma once
#include "run.hpp"

// Its numbers are those of all regions together. `time` is that of the program on the wall clock.
void count_parts(WholeProgram &whole, const Region &region);  // what those cost that make no tasks
void finish_whole(Run &run, const RegionTime &time, int64_t unit);
