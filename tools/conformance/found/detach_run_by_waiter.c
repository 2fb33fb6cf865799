/* libgomp: a wait for a task with `detach` ends without its event

   Build and run: `gcc -fopenmp detach_run_by_waiter.c && ./a.out`.

   Expected (OpenMP API 5.2, 12.5.2 and 15.9.5): a task with `detach` is complete once its code has ended and its
   event is fulfilled, and a task that depends on it begins after that. The program prints `in time`.

   Seen: `too early`. With `#pragma omp taskwait depend(in: x)` in place of the undeferred task it is the same.

   Where the waiting thread runs the task itself, `gomp_task_maybe_wait_for_dependencies` in `task.c` counts it as
   complete at the end of its code. Unlike the three other places that run tasks it does not look at `detach_team`. It
   also frees the task, so the later fulfilment works on freed memory, and may end the program with `event is invalid
   or has already been fulfilled!`.

   At stake: a promise of the standard.

   Versions (packages of Debian 12, x86-64): libgomp 12.2.0: too early in 10 of 10 runs of both forms. Libomp 16.0.6
   and 19.1.7: in none of 10. Trunk was not tried. */
#include <omp.h>
#include <stdatomic.h>
#include <stdio.h>
#include <unistd.h>

static omp_event_handle_t published;
static atomic_int begun, fulfilled;

int main(void) {
    int early = 0;
    char x;
#pragma omp parallel num_threads(2) shared(x)
    if (omp_get_thread_num() == 0) {
        omp_event_handle_t event = (omp_event_handle_t)0;
#pragma omp task detach(event) depend(out: x)
        {
            published = event;
            begun = 1;
        }
#pragma omp task if(0) depend(in: x) shared(early)
        early = !fulfilled;
        printf("%s\n", early ? "too early" : "in time"); /* in time */
        fflush(stdout);
    } else {
        while (!begun) usleep(100);
        usleep(20000);
        fulfilled = 1;
        omp_fulfill_event(published);
    }
    return early;
}
