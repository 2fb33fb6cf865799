/* libomp: an untied task that waits for a tied child deadlocks where the child yields

   Build and run: `clang -O1 -fopenmp untied_waits_for_yield.c && ./a.out`. It stops at the first of 3,000 runs that
   takes more than five seconds.

   Expected (OpenMP API 5.2, 12.8, 12.10 and 15.5): at a `taskyield` the thread may do something else, and the task
   goes on later. Nothing holds the only child up, so every run ends. The program prints `no hang`.

   Seen: `run 0 hangs: taskyield begun 1, ended 0`. The other threads wait in the region's barrier.

   One thread has all of it on its stack. The child's `__kmpc_omp_taskyield` has taken up the untied task, which was
   ready to go on. Its wait, also a `taskgroup`'s, looks for tasks until the child is complete, which lies below it on
   the same stack. As in `untied_nested_waits.c`, `__kmp_task_is_allowed` looks at a thread's tied tasks only where
   the new task is tied.

   At stake: a promise of the standard.

   Versions (packages of Debian 12, x86-64): run 0 or 1 hung in six of six starts with libomp 14.0.6, 15.0.6, 16.0.6
   and 19.1.7; on two threads runs 0 to 2 on 16 and 19. With a tied outer task, and without the `taskyield`, 3,000
   runs ended. Libgomp 12.2.0: none of 3,000. Trunk was not tried. */
#include <signal.h>
#include <stdio.h>
#include <unistd.h>

static volatile int run, begun, ended;

static void late(int number) {
    (void)number;
    printf("run %d hangs: taskyield begun %d, ended %d\n", run, begun, ended);
    fflush(stdout);
    _exit(1);
}

int main(void) {
    signal(SIGALRM, late);
    for (run = 0; run < 3000; run++) {
        begun = ended = 0;
        alarm(5);
#pragma omp parallel num_threads(4)
#pragma omp single
        {
#pragma omp task untied
            {
#pragma omp task
                {
                    begun = 1;
#pragma omp taskyield
                    ended = 1;
                }
#pragma omp taskwait
            }
        }
    }
    puts("no hang");
    return 0;
}
