/* Code between two rounds of tasks; rewritten, it is a task, for which the second round waits no more. */
#include "spin.h"

static void round_of_tasks(void) {
    for (int i = 0; i < 6; i++) {
#pragma omp task
        spin(5000);
    }
#pragma omp taskwait
}

int main(void) {
#pragma omp parallel
#pragma omp single
    {
        round_of_tasks();
#ifdef REWRITTEN
#pragma omp task
#endif
        spin(15000);
        round_of_tasks();
    }
    return 0;
}
