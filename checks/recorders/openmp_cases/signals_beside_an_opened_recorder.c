// A recorder that the runtime opens stands behind the system's functions and cannot see that a program takes its signal:
// so it takes none, and there are no samples.
// runtime: llvm
// env: SPANPROF_WHOLE=1
// file: out.tasks
#include "program_takes_all_signals.c"
