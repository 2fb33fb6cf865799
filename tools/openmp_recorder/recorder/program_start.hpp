// When the program began, on the wall clock.
#pragma once
#include <cstdint>

#include "clocks.hpp"

// All 0 where another thread loaded the library.
const Look &look_at_load();  // of the process's first thread, when this library was loaded or the process forked
int64_t program_start();  // to a hundredth of a second where the program waited before this library was loaded
