// A `taskwait` with `depend`, and after it an undeferred task: these are two.
// expect: tasks = 3
// text: task if\(0\) depend\(in: a0\) \{  # wait_and_undeferred_task.c:15\n( *work \d+\n)? *\}
// text: task if\(0\) \{  # wait_and_undeferred_task.c:1[56]
#include "spend.h"

int main(void) {
    int place = 0;
    (void)place;
#pragma omp parallel
#pragma omp single
    {
#pragma omp task depend(out: place)
        spend(1);
#pragma omp taskwait depend(in: place)
#pragma omp task if(0)
        spend(1);
    }
    return 0;
}
