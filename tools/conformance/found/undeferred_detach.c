/* clang and libomp: nothing waits for the event of an undeferred task with `detach`

   Build and run: `clang -O1 -fopenmp -pthread undeferred_detach.c && ./a.out`.

   Expected (OpenMP API 5.2, 12.5.2 and 15.9.5): the first task is complete only when its event is fulfilled,
   undeferred or not, and the second waits until then. The program prints `in order`.

   Seen: `too early`. The region's end does wait for the event.

   For an undeferred task clang's code waits for what the task depends on, and runs it between
   `__kmpc_omp_task_begin_if0` and `__kmpc_omp_task_complete_if0`. Its own items are never entered among the
   dependences, as if a task that has run were complete. With `detach` it is not.

   At stake: a promise of the standard.

   Versions (packages of Debian 12, x86-64): too early in 10 of 10 runs with clang and libomp 16.0.6 and 19.1.7, in
   none of 10 with libgomp 12.2.0. Trunk was not tried. */
#include <omp.h>
#include <pthread.h>
#include <stdatomic.h>
#include <stdio.h>
#include <unistd.h>

static omp_event_handle_t published;
static atomic_int begun, fulfilled;

static void *outside(void *unused) {
    while (!begun) usleep(100);
    usleep(10000);
    fulfilled = 1;
    omp_fulfill_event(published);
    return unused;
}

int main(void) {
    pthread_t thread;
    int item = 0, early = 0;
    if (pthread_create(&thread, NULL, outside, NULL)) return 2;
#pragma omp parallel num_threads(2)
#pragma omp single
    {
        omp_event_handle_t event = (omp_event_handle_t)0;
#pragma omp task detach(event) if(0) depend(out: item)
        {
            published = event;
            begun = 1;
        }
#pragma omp task depend(in: item) shared(early)
        early = !fulfilled;
    }
    pthread_join(thread, NULL);
    puts(early ? "too early" : "in order"); /* in order */
    return early;
}
