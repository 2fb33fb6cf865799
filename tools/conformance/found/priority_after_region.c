/* libomp 16 and 19: a region ends before a task with a priority that was created in another task

   Build and run: `clang -O1 -fopenmp priority_after_region.c && OMP_MAX_TASK_PRIORITY=9 ./a.out`.

   Expected (OpenMP API 5.2, 10.1, 12.4 and 15.3.2): all tasks of a region are complete when it ends. A priority only
   says which ready task to run first. The program prints `0 of 20 regions ended before their task`.

   Seen: `3 of 20 regions ended before their task`. A barrier ends too early in the same way.

   A thread that finds no task at the end of a region takes itself from the count of unfinished threads, and goes on
   looking. If it then steals a task, `__kmp_steal_task` in `kmp_tasking.cpp` counts it again;
   `__kmp_get_priority_task`, which takes tasks with a priority from their own queues, does not. Only direct children
   of the implicit task are counted besides.

   At stake: a promise of the standard.

   Versions (packages of Debian 12, x86-64): of 20 regions, in five starts on four busy processors: libomp 16.0.6 3,
   2, 1, 0, 2; 19.1.7 1, 1, 0, 2, 3; libomp 14.0.6 and libgomp 12.2.0 none. Without `OMP_MAX_TASK_PRIORITY` none on
   each. Trunk was not tried. */
#include <stdatomic.h>
#include <stdio.h>
#include <unistd.h>

static atomic_int begun, ended;

int main(void) {
    int early = 0;
    for (int run = 0; run < 20; run++) {
        begun = ended = 0;
#pragma omp parallel num_threads(4)
#pragma omp master
#pragma omp task
        {
            usleep(10000);
#pragma omp task priority(5)
            {
                begun = 1;
                usleep(20000);
                ended = 1;
            }
            for (int i = 0; i < 10000 && !begun; i++) usleep(100);
        }
        early += !ended;
        while (!ended) usleep(100);
    }
    printf("%d of 20 regions ended before their task\n", early);
    return early != 0;
}
