// Serial code, and loops before and after the tasks: the head divides the time, and the loops are in the text.
// clock: counted
// text: # not covered: \{"outside regions": 6\d{7},
// text: # outside regions: \d+
// text: # in parts without tasks: 8\d{7}
// expect: work >= 88000000
// expect: span >= 20000000
#include "spend.h"

int main(void) {
    spend(60);
#pragma omp parallel
    {
#pragma omp for
        for (int i = 0; i < 40; i++) spend(1);
#pragma omp single
        for (int i = 0; i < 8; i++) {
#pragma omp task
            spend(1);
        }
#pragma omp for
        for (int i = 0; i < 40; i++) spend(1);
    }
    return 0;
}
