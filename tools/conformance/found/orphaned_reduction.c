/* libgomp: abort outside of a region where a task has a group with a reduction, or a target task

   Build and run: `gcc -fopenmp orphaned_reduction.c && ./a.out`.

   Expected (OpenMP API 5.2, 1.3): code outside of any region is an implicit task of a team of one thread, in which
   tasks, groups and reductions mean what they always do. The program prints `1`.

   Seen: `free(): invalid pointer`, SIGABRT.

   `GOMP_taskgroup_reduction_register` makes a team of one thread where there is none, by
   `gomp_create_artificial_team`. That ends and frees the current task, which it takes for the implicit one. Here it
   is the undeferred task on the stack of `GOMP_task`. `target nowait` in place of the group does the same, by the
   code for it in `GOMP_target_ext`. Right in `main`, where the current task is the implicit one, both work.

   At stake: a promise of the standard.

   Versions (packages of Debian 12, x86-64): libgomp 12.2.0: 5 of 5 runs, and 5 of 5 with `target nowait`. Libomp
   14.0.6, 15.0.6, 16.0.6 and 19.1.7: none of 5. Trunk was not tried. */
#include <stdio.h>

int main(void) {
    int sum = 0;
#pragma omp task shared(sum)
    {
#pragma omp taskgroup task_reduction(+: sum)
        {
#pragma omp task in_reduction(+: sum)
            sum++;
        }
    }
    printf("%d\n", sum); /* 1 */
    return sum != 1;
}
