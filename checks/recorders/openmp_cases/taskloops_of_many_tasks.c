// The runtime makes tasks that make a loop's tasks: they stand in no text, and a `taskwait` waits for the loop's.
// runtime: llvm
// clock: counted
// expect: tasks = 225
// expect: work >= 41000000
// expect: span >= 20000000
// expect: span <= 24000000
#include "spend.h"

int main(void) {
#pragma omp parallel
#pragma omp single
    {
#pragma omp taskloop num_tasks(64) nogroup
        for (int i = 0; i < 64; i++)
            if (i == 63) spend(10);
#pragma omp taskwait
        spend(10);
#pragma omp taskloop grainsize(1)
        for (int i = 0; i < 100; i++) {
            if (i < 99) continue;
#pragma omp taskloop num_tasks(60)
            for (int j = 0; j < 60; j++)
                if (j >= 39) spend(1);
        }
#pragma omp task
        ;
    }
    return 0;
}
