/* libomp: a region with one task with a priority never ends, now and then

   Build and run: `clang -O1 -fopenmp priority_no_end.c && OMP_MAX_TASK_PRIORITY=9 ./a.out`. It stops at the first of
   20,000 runs that takes more than five seconds.

   Expected (OpenMP API 5.2, 10.1 and 12.4): a priority is a hint which ready task to run first. The region ends once
   all its threads have reached its end and all its tasks are complete. The program prints `no hang`.

   Seen: `run 238 hangs: task done 1`. On libomp 16 one thread is busy inside the runtime, below its search for tasks
   at the end of the region, at the same place both times. The others wait for it there. Without
   `OMP_MAX_TASK_PRIORITY`, or without the clause, 20,000 runs end. The cause is not known.

   At stake: a promise of the standard.

   Versions (packages of Debian 12, x86-64): the run that hung, in two starts on four busy processors: libomp 15.0.6
   11 and 2,256; 16.0.6 13 and 238. None of 20,000 with libomp 14.0.6 and with 19.1.7 (clang 19.1.7 and 22.1.8), none
   of 2,000 with libgomp 12.2.0. Trunk was not tried. */
#include <signal.h>
#include <stdio.h>
#include <unistd.h>

static volatile int run, done;

static void late(int number) {
    (void)number;
    printf("run %d hangs: task done %d\n", run, done);
    fflush(stdout);
    _exit(1);
}

int main(void) {
    signal(SIGALRM, late);
    for (run = 0; run < 20000; run++) {
        done = 0;
        alarm(5);
#pragma omp parallel num_threads(4)
#pragma omp single
        {
#pragma omp task priority(5)
            done = 1;
        }
    }
    puts("no hang");
    return 0;
}
