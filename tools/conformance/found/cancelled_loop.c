/* libomp: a region with more than seven cancelled loops hangs

   Build and run: `clang -O1 -fopenmp cancelled_loop.c && OMP_CANCELLATION=true ./a.out`.

   Expected (OpenMP API 5.2, 16.1): a thread that meets a cancellation point of a cancelled loop goes on behind the
   loop. The program prints `done`.

   Seen: it hangs at the eighth loop; all threads wait in `sched_yield` where it begins. With seven loops it ends.

   A thread that leaves a cancelled loop does not give back the loop's dispatch buffer, and there are seven
   (`KMP_DISP_NUM_BUFFERS`). Where each such loop has a region of its own, a build with assertions ends with
   `Assertion failure at kmp_dispatch.cpp(564): pr->steal_flag == THIEF` at the second region.

   At stake: a promise of the standard.

   Versions (packages of Debian 12, x86-64): hung in 10 of 10 runs with libomp 14.0.6, 16.0.6 (clang 16.0.6) and
   19.1.7 (clang 19.1.7), in none of 10 with libgomp 12.2.0. Trunk was not tried. */
#include <omp.h>
#include <stdio.h>
#include <unistd.h>

int main(void) {
#pragma omp parallel num_threads(2)
    for (int loop = 0; loop < 20; loop++) {
#pragma omp for schedule(dynamic, 1)
        for (int i = 0; i < 1000; i++) {
            if (i == 5) {
#pragma omp cancel for
            }
#pragma omp cancellation point for
            usleep(10);
        }
    }
    puts(omp_get_cancellation() ? "done" : "OMP_CANCELLATION is not set"); /* done */
    return 0;
}
