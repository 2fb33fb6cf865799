/* libomp 14 to 16: after a task with `detach` on one thread, the next region aborts

   Build and run: `clang -O1 -fopenmp detach_on_one_thread.c && ./a.out`.

   Expected (OpenMP API 5.2, 12.5.2): the task is complete once its body has run and its event is fulfilled, and the
   `taskwait` waits for that. The program prints three lines.

   Seen: `region 0`, and then `Assertion failure at kmp_runtime.cpp(1130):
   serial_team->t.t_task_team[this_thr->th.th_task_state] == __null.`

   For a task with `detach`, `__kmp_task_alloc` gives the team of one thread a `task_team`, which only larger teams
   have otherwise. Nothing takes it back at the region's end, and `__kmpc_serialized_parallel` does not expect it at
   the next one. Where the region can be cancelled, another assertion fails at its own end:
   `master_th->th.th_task_team == team->t.t_task_team[master_th->th.th_task_state]`.

   At stake: a promise of the standard.

   Versions (packages of Debian 12, x86-64): libomp 14.0.6 and 15.0.6 (line 1124) and 16.0.6 (line 1130) with clang
   16.0.6, all built with assertions, one run each. Clang 19.1.7 with its libomp, and libgomp 12.2.0, print three
   lines. Trunk was not tried. */
#include <omp.h>
#include <stdio.h>

int main(void) {
    for (int run = 0; run < 3; run++) {
#pragma omp parallel num_threads(1)
        {
            omp_event_handle_t event = (omp_event_handle_t)0;
#pragma omp task detach(event)
            omp_fulfill_event(event);
#pragma omp taskwait
        }
        printf("region %d\n", run);
        fflush(stdout);
    }
    return 0;
}
