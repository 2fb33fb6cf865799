/* libgomp: no waiting thread runs the child of a task with `detach`

   Build and run: `gcc -fopenmp detached_task_with_child.c && ./a.out`.

   Expected (OpenMP API 5.2, 12.10 and 15.5): at a `taskwait` a thread may begin another task. The child is a
   descendant of each task that waits, so no constraint on tied tasks holds it back. The program prints `done`.

   Seen: it hangs, and its threads sleep. The code of the task with `detach` has ended, and its child, which fulfils
   the event, is never begun.

   `GOMP_taskwait` in `task.c` runs only children of the task that waits. Where no thread is left at a barrier, a task
   whose parent waits nowhere is never run. On four threads one is at the barrier, and runs it.

   At stake: a quality of the implementation: a thread that waits may run other tasks, and need not.

   Versions (packages of Debian 12, x86-64): libgomp 12.2.0: hung in 10 of 10 runs on 1 thread, 4 of 10 on 2, none of
   10 on 4. Libomp 19.1.7: in none of 10 on each. Trunk was not tried. */
#include <omp.h>
#include <stdio.h>

int main(void) {
#pragma omp parallel num_threads(2)
#pragma omp single
    {
#pragma omp task
        {
            omp_event_handle_t event = (omp_event_handle_t)0;
#pragma omp task detach(event)
            {
#pragma omp task firstprivate(event)
                omp_fulfill_event(event);
            }
#pragma omp taskwait
        }
#pragma omp taskwait
    }
    puts("done");
    return 0;
}
