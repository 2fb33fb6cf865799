/* libomp: an untied task's undeferred tied child begins on a thread on which another tied task waits

   Build and run: `clang -O1 -fopenmp undeferred_unconstrained.c && ./a.out`.

   Expected (OpenMP API 5.2, 12.10): a thread on which tied tasks are suspended, outside of a barrier, may begin a tied
   task only if it is a descendant of each of them. A task whose `if` is false is executed at once only where that
   constraint is met. The program prints `right`.

   Seen: `begun where another tied task waits`. A lock that the suspended task holds would never be given up to such a
   child.

   For tasks in queues `__kmp_task_is_allowed` in `kmp_tasking.cpp` looks at the constraint. A task with `if(0)` is in
   no queue: `__kmpc_omp_task_begin_if0` begins it without a look. A child of a `final` task begins there as well, but
   by that clause the thread that meets it has to execute it.

   At stake: a promise of the standard.

   Versions (packages of Debian 12, x86-64): 15 of 15 runs with libomp 14.0.6, 16.0.6 and 19.1.7, none of 15 with
   libgomp 12.2.0. Without `if(0)`, `right` in 3 of 3 on 16 and 19. Trunk was not tried. */
#include <omp.h>
#include <stdatomic.h>
#include <stdio.h>
#include <unistd.h>

static omp_event_handle_t published;
static atomic_int begun, waiting, asked;

int main(void) {
    int wrong = 0;
#pragma omp parallel num_threads(2) shared(wrong)
    if (omp_get_thread_num() == 0) {
#pragma omp task untied shared(wrong)
        {
#pragma omp task if(0) shared(wrong)
            {
                wrong = waiting && omp_get_thread_num() == 0;
                asked = 1;
            }
        }
#pragma omp task if(0)
        {
            omp_event_handle_t event = (omp_event_handle_t)0;
#pragma omp task detach(event)
            {
                published = event;
                begun = 1;
            }
            waiting = 1;
#pragma omp taskwait
            waiting = 0;
        }
    } else {
        while (!begun) usleep(100);
        for (int i = 0; i < 10000 && !asked; i++) usleep(100);
        omp_fulfill_event(published);
    }
    puts(wrong ? "begun where another tied task waits" : "right");
    return wrong;
}
