// `mutexinoutset` is written as `inoutset`, so the span is too low.
// text: # remark: mutexinoutset, 12 times at tasks_that_exclude_each_other.c:\d+: span too low
// text: depend\(inoutset: a0\)
// clock: counted
// expect: span <= 8000000
#include "spend.h"

int main(void) {
    int place = 0;
    (void)place;
#pragma omp parallel
#pragma omp single
    for (int i = 0; i < 12; i++) {
#pragma omp task depend(mutexinoutset: place)
        spend(1);
    }
    return 0;
}
