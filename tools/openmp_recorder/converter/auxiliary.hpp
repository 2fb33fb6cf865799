// The tasks that LLVM's runtime makes for a taskloop only to have them make others.
#pragma once
#include "run.hpp"

// Leaves them out: what they made is made by the task that met the loop, where it made them, and what they cost counts
// in what they made.
void leave_out_auxiliary(Region &region);
