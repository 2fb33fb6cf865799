/* clang: in `parallel master taskloop` a variable that is shared by default is each task's own copy

   Build and run: `clang -O1 -fopenmp master_taskloop_copies.c && ./a.out`.

   Expected (OpenMP API 5.2, 5.1.1 and 17.4): the combined form means the same as its parts one inside the other.
   `turns` is shared in the region, and so in the taskloop inside it. The program prints `40`.

   Seen: `0`. With `shared(turns)`, and with the three directives one by one, it prints `40`.

   At stake: a promise of the standard.

   Versions (packages of Debian 12, x86-64): clang 19.1.7: 0 with -O0 and -O1. Gcc 12.2.0: 40. Trunk was not tried. */
#include <stdio.h>

int main(void) {
    int turns = 0;
#pragma omp parallel master taskloop
    for (int i = 0; i < 40; i++) {
#pragma omp atomic
        turns++;
    }
    printf("%d\n", turns);
    return turns != 40;
}
