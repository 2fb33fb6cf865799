/* libomp: a cancelled group leaves out the rest of an untied task that has begun

   Build and run: `clang -O1 -fopenmp cancelled_untied_task.c && OMP_CANCELLATION=true ./a.out`.

   Expected (OpenMP API 5.2, 16.1): tasks of a cancelled group that have not begun may be left out. One that has begun
   runs on to its end or to a cancellation point, and a `taskwait` is none. The program prints `begun 1, ended 1`.

   Seen: `begun 1, ended 0`.

   A suspended untied task is queued and invoked again. `__kmp_invoke_task` in `kmp_tasking.cpp` then leaves it out if
   its group is cancelled, although it has begun. The group is `td_taskgroup`, the innermost one that the task is in.
   So an untied task in no group is also cut short by a cancelled group in its own code, and each wait for it ends too
   early.

   At stake: a promise of the standard.

   Versions (packages of Debian 12, x86-64): cut short in 5 of 5 runs of both kinds with libomp 14.0.6, 15.0.6, 16.0.6
   and 19.1.7, in none of 5 with libgomp 12.2.0. Trunk was not tried. */
#include <stdio.h>

int main(void) {
    int begun = 0, ended = 0;
#pragma omp parallel num_threads(2)
#pragma omp single
#pragma omp taskgroup
    {
#pragma omp task untied shared(begun, ended)
        {
            begun = 1;
#pragma omp task
            {
#pragma omp cancel taskgroup
            }
#pragma omp taskwait
            ended = 1;
        }
    }
    printf("begun %d, ended %d\n", begun, ended); /* begun 1, ended 1 */
    return begun != ended;
}
