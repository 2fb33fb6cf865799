// The barriers at the ends of `single`, `for` and `sections`, in a group and in a group inside that.
// expect: tasks = 12
// expect: work >= 14400000
#include "spend.h"

int main(void) {
#pragma omp parallel num_threads(4)
#pragma omp taskgroup
    {
#pragma omp task
        spend(1);
#pragma omp single
        spend(1);
#pragma omp taskgroup
        {
#pragma omp task
            spend(1);
#pragma omp for
            for (int i = 0; i < 4; i++) spend(1);
#pragma omp sections
            {
#pragma omp section
                spend(1);
#pragma omp section
                spend(1);
            }
        }
#pragma omp task
        spend(1);
    }
    return 0;
}
