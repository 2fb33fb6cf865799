// glibc registers no restartable sequences: costs are by the wall clock, and the head says so.
// env: GLIBC_TUNABLES=glibc.pthread.rseq=0
// text: "clock": "wall"
#include "more_threads_than_processors.c"
