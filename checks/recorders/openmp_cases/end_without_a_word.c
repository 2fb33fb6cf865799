// By `_exit` inside a region the runtime gets no word: what was recorded until then is there.
// status: 3
// says: the log ends \d+.\d ms after recording began, inside a region
// text: # remark: the program ended inside the region: work and span too low
// expect: work >= 3600000
#include <unistd.h>

#include "spend.h"

int main(void) {
#pragma omp parallel
#pragma omp single
    {
        for (int i = 0; i < 4; i++) {
#pragma omp task
            spend(1);
        }
#pragma omp taskwait
        _exit(3);
    }
    return 0;
}
