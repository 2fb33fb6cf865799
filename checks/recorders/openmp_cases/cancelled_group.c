// env: OMP_CANCELLATION=true
// text: # remark: cancellation, left out, \d+ times?.* work and span too low or too high
#include "spend.h"

int main(void) {
#pragma omp parallel
#pragma omp single
#pragma omp taskgroup
    for (int i = 0; i < 4; i++) {
#pragma omp task
        {
            spend(1);
#pragma omp cancel taskgroup
        }
    }
    return 0;
}
