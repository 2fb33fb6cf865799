// Four threads on one processor: while they wait for it, tasks cost nothing.
// measured: how the threads share the processor
// expect: work >= 36000000
// expect: work <= 50000000
// expect: off the processor >= 20000000
// text: "clock": "own"
#include "more_threads_than_processors.c"
