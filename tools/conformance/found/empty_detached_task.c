/* gcc: an empty task with `detach` is left out, and its event never set

   Build and run: `gcc -O1 -fopenmp empty_detached_task.c && ./a.out`.

   Expected (OpenMP API 5.2, 12.5 and 12.5.2): the variable in `detach` gets an event, and the task is complete once
   that is fulfilled. A task without code that waits for something outside of OpenMP is written so. The program prints
   `an event`.

   Seen: `no event`. `omp_fulfill_event` with such a variable breaks down.

   With optimization gcc leaves out tasks with an empty body and without `depend` (`scan_omp_task` in omp-low.cc); it
   does not ask for `detach`.

   At stake: a promise of the standard.

   Versions (packages of Debian 12, x86-64): gcc 12.2.0: `no event` with -O1 and -O2, `an event` with -O0 or with a
   `depend` clause. Clang 19.1.7: `an event`. Trunk was not tried. */
#include <omp.h>
#include <stdio.h>

int main(void) {
    omp_event_handle_t event = (omp_event_handle_t)0;
#pragma omp parallel
#pragma omp single
    {
#pragma omp task detach(event)
        {
        }
        if (event) omp_fulfill_event(event);
    }
    puts(event ? "an event" : "no event");
    return !event;
}
