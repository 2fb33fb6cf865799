/* The stacks of all threads of this process, as a debugger sees them. */
#ifndef STACKS_H
#define STACKS_H
#include "output.h"

/* A line `stack LINE` for each line that the debugger prints; nothing where it is missing. */
void say_stacks(struct output *output);
#endif
