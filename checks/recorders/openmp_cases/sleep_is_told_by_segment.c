// Serial code that sleeps, and more threads than the region's team has: what was no code is told by segment, and by
// place what waited for a lock. Where the thread loses its processor too, how long it slept is told apart.
// needs: LLVM 16
// env: SPANPROF_WHOLE=1
// env: SPANPROF_TIMES=1
// file: out.tasks out.off out.locks out.regions
// in out.off: ^0 (?:[3-9]\d{7}|\d{9,}) (?:[5-9]\d{6}|\d{8,})$
// in out.off: ^\d{2} (?:[3-9]\d{7}|\d{9,}) \d+$
// in out.locks: "place": "sleep_is_told_by_segment.c:[34]\d", "kind": "critical", "times": 8, "inside_ns": \d+, "waited_ns": \d+
// in out.regions: ^1,0,\d+,\d+,2,2,0,1,
#define _GNU_SOURCE
#include <pthread.h>
#include <sched.h>
#include <unistd.h>

#include "spend.h"

static int count;
static cpu_set_t all, only;

static void *take_the_processor(void *nothing) {
    sched_setaffinity(0, sizeof only, &only);
    spend(100);
    return nothing;
}

int main(void) {
    pthread_t other;
    sched_getaffinity(0, sizeof all, &all);
    CPU_SET(sched_getcpu(), &only);
    pthread_create(&other, NULL, take_the_processor, NULL);
    sched_setaffinity(0, sizeof only, &only);
    spend(30);
    sched_setaffinity(0, sizeof all, &all);
    usleep(50000);
#pragma omp parallel for schedule(dynamic, 1) num_threads(2)
    for (int i = 0; i < 8; i++) {
#pragma omp critical
        {
            spend(1);
            count++;
        }
    }
    usleep(50000);
    pthread_join(other, NULL);
    return 0;
}
