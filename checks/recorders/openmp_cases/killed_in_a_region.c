// Killed by a signal that no program can handle: what was recorded until then is there.
// status: -9
// says: the log ends \d+.\d ms after recording began, inside a region
// text: # remark: the program ended inside the region: work and span too low
// expect: work >= 3600000
#include <signal.h>

#include "spend.h"

int main(void) {
#pragma omp parallel
#pragma omp single
    {
        for (int i = 0; i < 4; i++) {
#pragma omp task
            spend(1);
        }
#pragma omp taskwait
        raise(SIGKILL);
    }
    return 0;
}
