/* libgomp: a thread that sleeps at the end of a group is not woken for a task that comes into the group

   Build and run: `gcc -fopenmp detached_task_in_group.c && ./a.out`.

   Expected (OpenMP API 5.2, 12.10 and 15.4): a thread at the end of a group may begin another task. The child belongs
   to the group and is below each task that waits, so no constraint on tied tasks holds it back. The program prints
   `done`.

   Seen: it hangs, with one thread in `GOMP_taskgroup_end` and one in `GOMP_taskwait`.

   By the source, the first finds no ready task of the group and sleeps. `GOMP_task` puts the child into the group's
   queue, but wakes only threads at barriers. The second runs only children of the task that waits. With a pause of
   0.3 s before the end of the group, so that the child is there before a thread sleeps, 10 of 10 runs ended.
   `detached_task_with_child.c` is about threads that all wait at a `taskwait`.

   At stake: a quality of the implementation: a thread that waits may run other tasks, and need not.

   Versions (packages of Debian 12, x86-64): libgomp 12.2.0: hung in 10 of 10 runs on 2 threads, in none of 10 on 4.
   Libomp 14.0.6, 16.0.6 and 19.1.7: in none of 10 on 2. Trunk was not tried. */
#include <omp.h>
#include <stdatomic.h>
#include <stdio.h>
#include <unistd.h>

static atomic_int begun;

int main(void) {
#pragma omp parallel num_threads(2)
#pragma omp single
#pragma omp taskgroup
    {
#pragma omp task
        {
            omp_event_handle_t event = (omp_event_handle_t)0;
            begun = 1;
            usleep(100000);
#pragma omp task detach(event)
            {
#pragma omp task firstprivate(event)
                omp_fulfill_event(event);
            }
#pragma omp taskwait
        }
        while (!begun) usleep(100);
    }
    puts("done");
    return 0;
}
