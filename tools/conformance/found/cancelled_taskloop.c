/* libomp: a taskloop whose group one of its tasks cancels never ends, now and then

   Build and run: `clang -O1 -fopenmp cancelled_taskloop.c && OMP_CANCELLATION=true ./a.out`. It stops at the first of
   1,000 runs that takes more than ten seconds.

   Expected (OpenMP API 5.2, 12.6 and 16.1): a taskloop has a group of its own, which its tasks may cancel. Those that
   have not begun are left out, and the taskloop ends. The program prints `no hang`.

   Seen: `run 20 hangs`; one thread is busy in `__kmpc_end_taskgroup`, the others wait in the barrier.

   It looks as if the group counts tasks that nobody completes: a taskloop of many tasks hands its halves on as tasks
   of the runtime, and with one that is left out the copy of the program's task is lost, which was counted before.

   At stake: a promise of the standard.

   Versions (packages of Debian 12, x86-64): libomp 19.1.7: in two starts run 20 and run 495 hung. Libgomp 12.2.0:
   none of 1,000. Trunk was not tried. */
#include <signal.h>
#include <stdio.h>
#include <unistd.h>

static volatile int run;

static void late(int number) {
    (void)number;
    printf("run %d hangs\n", run);
    fflush(stdout);
    _exit(1);
}

int main(void) {
    signal(SIGALRM, late);
    for (run = 0; run < 1000; run++) {
        alarm(10);
#pragma omp parallel num_threads(2)
#pragma omp single
#pragma omp taskloop grainsize(1)
        for (int i = 0; i < 40; i++) {
            if (i == 5) {
#pragma omp cancel taskgroup
            }
            usleep(100);
        }
    }
    puts("no hang");
    return 0;
}
