/* clang: `masked taskloop` and the forms with it run no turn

   Build and run: `clang -O1 -fopenmp masked_taskloop_dropped.c && ./a.out`.

   Expected (OpenMP API 5.2, 17.3, 10.5 and 12.6): one thread of the team creates the tasks of the taskloop, and each
   turn runs once. The program prints `40`.

   Seen: `0`: the loop is left out, without a word. The code has no call of `__kmpc_taskloop`. With `masked` and
   `taskloop` as two directives it prints `40`, and so it does with `parallel master taskloop`.

   At stake: a promise of the standard.

   Versions (packages of Debian 12, x86-64): clang 19.1.7: 0 with -O0 and -O1, also by `-fopenmp-version=60` and with
   `filter(0)`. Gcc 12.2.0: 40. Trunk was not tried. */
#include <stdio.h>

static int turns;

int main(void) {
#pragma omp parallel masked taskloop
    for (int i = 0; i < 40; i++) {
#pragma omp atomic
        turns++;
    }
    printf("%d\n", turns);
    return turns != 40;
}
