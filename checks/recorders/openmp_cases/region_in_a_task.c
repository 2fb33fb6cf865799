// A region inside a task, in which only the other thread works: by the processor's clock the task does not take its time.
// clock: counted
// env: OMP_WAIT_POLICY=passive
// expect: span <= 9000000
// text: # not covered: \{"outside regions": \d+, "in other regions": [12]\d{7},
// text: # remark: parallel region inside a task, whose other threads ran longer than the task, 1 time at region_in_a_task.c:\d+: work and span too low
// no text: span too high
#include <omp.h>

#include "spend.h"

int main(void) {
    omp_set_max_active_levels(2);
#pragma omp parallel num_threads(2)
#pragma omp single
    {
#pragma omp task
        {
#pragma omp parallel num_threads(2)
            if (omp_get_thread_num() == 1) spend(10);
        }
    }
    return 0;
}
