/* clang: `strict` of a taskloop's `grainsize` is read and then forgotten

   Build and run: `clang -O1 -fopenmp strict_ignored.c && ./a.out`.

   Expected (OpenMP API 5.2, 12.6.1): without a modifier a task has at least as many iterations as the number says,
   and fewer than twice as many. With `strict` each has just so many, but the one with the last iteration, which may
   have fewer. So three tasks have 3, 3 and 1.

   Seen: `2 tasks of 3 4 turns`.

   LLVM's runtime has `__kmpc_taskloop_5`, which takes the modifier, but the compiler calls `__kmpc_taskloop`, as `-S
   -emit-llvm` shows. For `num_tasks(strict: ..)` it makes no difference.

   At stake: a promise of the standard.

   Versions (packages of Debian 12, x86-64): two tasks with clang 19.1.7 (`-fopenmp-version=51`, `=52` and none) and
   16.0.6 (`=52`; without it `strict` is an error). Gcc 12.2.0 makes three with libgomp, and two with libomp 19.1.7 in
   its place: `GOMP_taskloop` there does not look at the flag. One run each. Trunk was not tried. */
#include <omp.h>
#include <stdio.h>

int main(void) {
    int tasks = 0, turns[7] = {0};
#pragma omp parallel num_threads(2)
#pragma omp single
    {
        int own = 0;
#pragma omp taskloop grainsize(strict : 3) firstprivate(own) shared(tasks, turns)
        for (int i = 0; i < 7; i++) {
            if (!own) {
#pragma omp atomic capture
                own = ++tasks;
            }
#pragma omp atomic
            turns[own - 1]++;
        }
    }
    printf("%d tasks of", tasks);
    for (int i = 0; i < tasks; i++) printf(" %d", turns[i]);
    puts(" turns");
    return tasks != 3;
}
