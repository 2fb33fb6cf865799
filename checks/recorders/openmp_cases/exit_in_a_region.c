// What was recorded is written, though the runtime does not tell the tool's end.
// says: the program ended inside the region
// text: # remark: the program ended inside the region: work and span too low
// expect: work >= 3600000
#include <stdlib.h>

#include "spend.h"

int main(void) {
#pragma omp parallel
#pragma omp single
    {
        for (int i = 0; i < 4; i++) {
#pragma omp task
            spend(1);
        }
#pragma omp taskwait
        exit(0);
    }
    return 0;
}
