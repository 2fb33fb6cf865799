/* libgomp: crash outside of a region where an iteration of a taskloop with a reduction creates a task

   Build and run: `gcc -fopenmp orphaned_taskloop.c && ./a.out`.

   Expected (OpenMP API 5.2, 1.3): code outside of any region is an implicit task of a team of one thread, in which
   taskloops, reductions and tasks mean what they always do. The program prints `2`.

   Seen: SIGSEGV in `GOMP_taskloop`, called by `main`.

   `taskloop.c` reads the team first, and there is none. `GOMP_taskgroup_reduction_register` then makes a team of one
   thread, but the taskloop keeps its null pointer, and runs its tasks undeferred. In the new team the task that the
   iteration creates is deferred, so it is still among the children at the end of the iteration, and `gomp_mutex_lock
   (&team->task_lock)` locks at that pointer. The cause is not that of `orphaned_reduction.c`: this taskloop stands
   right in `main`.

   At stake: a promise of the standard.

   Versions (packages of Debian 12, x86-64): libgomp 12.2.0: 10 of 10 runs. Libomp 14.0.6, 16.0.6 and 19.1.7: none of
   10. Trunk was not tried. */
#include <stdio.h>

int main(void) {
    int sum = 0;
#pragma omp taskloop reduction(+: sum) num_tasks(1)
    for (int i = 0; i < 2; i++) {
        sum++;
#pragma omp task
        {}
    }
    printf("%d\n", sum); /* 2 */
    return sum != 2;
}
