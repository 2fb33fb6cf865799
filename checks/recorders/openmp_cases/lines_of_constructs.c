// Constructs with lines of their own, some of them combined: no remark.
// runtime: llvm
// no text: construct at the line of another
// expect: tasks >= 12
#include "spend.h"

int main(void) {
#pragma omp parallel
#pragma omp master
    {
#pragma omp task
        spend(0);
#pragma omp taskwait
#pragma omp taskgroup
        {
#pragma omp task if(0)
            spend(0);
        }
#pragma omp taskloop num_tasks(8)
        for (int i = 0; i < 8; i++) spend(0);
#pragma omp task untied
        {
#pragma omp task
            spend(0);
#pragma omp taskwait
            spend(0);
        }
    }
    return 0;
}
