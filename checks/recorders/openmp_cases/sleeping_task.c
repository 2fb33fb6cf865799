// Eight tasks of 5 ms that sleep: by the processor's clock they cost nothing, and the head says what is missing.
// env: SPANPROF_CLOCK=cpu
// expect: work <= 10000000
// expect: off the processor >= 38000000
// text: # remark: blocked in code.*, ([89]|[1-9][0-9]+) times.* at sleeping_task.c:\d+: work and span too low
#include <time.h>

int main(void) {
    struct timespec five_milliseconds = {0, 5000000};
#pragma omp parallel
#pragma omp single
    for (int i = 0; i < 8; i++) {
#pragma omp task
        nanosleep(&five_milliseconds, 0);
    }
    return 0;
}
