// 32 tasks of 1 ms and 1 ms in one critical section: waiting is no cost, and the lock is told.
// clock: counted
// expect: work >= 64000000
// expect: work <= 90000000
// text: # lock: \{"kind": "critical", "at": "contended_lock.c:\d+", "times": 32, "inside": (3[2-9]|4\d)\d{6},
// expect: most held lock >= 32000000
// text: # remark: time inside locks, whose mutual exclusion is left out, 32 times at contended_lock.c:\d+: span too low
#include "spend.h"

int main(void) {
#pragma omp parallel
#pragma omp single
    for (int i = 0; i < 32; i++) {
#pragma omp task
        {
            spend(1);
#pragma omp critical
            spend(1);
        }
    }
    return 0;
}
