/* libomp: a region that one thread cancels never ends, where the others go straight to its end

   Build and run: `clang -O1 -fopenmp cancelled_by_one_thread.c && OMP_CANCELLATION=true ./a.out`.

   Expected (OpenMP API 5.2, 16.1): the thread that cancels the region goes on at its end, where the others wait. The
   program prints `done`.

   Seen: `it hangs`. One thread is in `__kmpc_cancel_barrier`, the other at the end of the region.

   Clang calls `__kmpc_cancel_barrier` behind `cancel parallel`, a barrier of the whole team. The other thread has no
   cancellation point, and so comes to no such barrier. `cancelled_after_barrier.c` is about two of these calls.

   At stake: a promise of the standard.

   Versions (packages of Debian 12, x86-64): libomp 19.1.7: hung in 10 of 10 runs. Libgomp 12.2.0: in none of 10.
   Trunk was not tried. */
#include <omp.h>
#include <signal.h>
#include <stdio.h>
#include <unistd.h>

static void late(int number) {
    (void)number;
    puts("it hangs");
    fflush(stdout);
    _exit(1);
}

int main(void) {
    signal(SIGALRM, late);
    alarm(10);
#pragma omp parallel num_threads(2)
    {
        if (omp_get_thread_num() == 0) {
#pragma omp cancel parallel
        }
    }
    puts("done");
    return 0;
}
