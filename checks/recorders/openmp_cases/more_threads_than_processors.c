// Four threads on one processor: by the wall clock the tasks take longer than they need, and the head says how much.
// measured: how the threads share the processor
// env: SPANPROF_CLOCK=wall
// expect: work >= 54000000
// expect: off the processor >= 20000000
// text: # remark: preempted in code.*: work and span too high
#define _GNU_SOURCE
#include <sched.h>

#include "spend.h"

int main(void) {
    cpu_set_t only;
    CPU_ZERO(&only);
    CPU_SET(sched_getcpu(), &only);
    sched_setaffinity(0, sizeof only, &only);
#pragma omp parallel
#pragma omp single
    for (int i = 0; i < 8; i++) {
#pragma omp task
        spend(5);
    }
    return 0;
}
