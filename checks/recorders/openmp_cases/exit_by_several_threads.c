// Threads that call `exit` at once: what was recorded is written, whoever ends the process.
// says: the program ended inside the region
// text: # remark: the program ended inside the region: work and span too low
// text: # remark: task that did not end
// expect: work >= 2700000
#include <stdlib.h>

#include "spend.h"

int main(void) {
#pragma omp parallel num_threads(4)
    {
#pragma omp single
#pragma omp task
        spend(3);
#pragma omp task
        exit(0);
    }
    return 0;
}
