// With OMP_PROC_BIND gcc's runtime, which is loaded beside LLVM's, binds the first thread to one place before LLVM's
// looks which processors there are. Then all threads would share it. Status 1: two threads have one processor, though
// there are more.
// compiler: gcc
// env: OMP_PROC_BIND=close
// env: OMP_NUM_THREADS=2
// again: OMP_PROC_BIND=spread
// text: # recorded: .*"threads": 2,
// expect: tasks = 8
#define _GNU_SOURCE
#include <omp.h>
#include <sched.h>

#include "spend.h"

static int processor_of[2];

static int processor(void) {
    cpu_set_t set;
    sched_getaffinity(0, sizeof set, &set);
    int first = 0;
    while (first < CPU_SETSIZE - 1 && !CPU_ISSET(first, &set)) first++;
    return first;
}

int main(void) {
#pragma omp parallel
    {
        processor_of[omp_get_thread_num()] = processor();
#pragma omp single
        for (int i = 0; i < 8; i++) {
#pragma omp task
            spend(1);
        }
    }
    return omp_get_num_places() > 1 && processor_of[0] == processor_of[1];
}
