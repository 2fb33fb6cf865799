// Of several regions the median one is written where one is asked for.
// env: SPANPROF_REGION=
// clock: counted
// text: # region: \{"at": "many_regions.c:14", "number": 1, "of": 5\}
// file: out.tasks out.regions
// no file: out.2.tasks
// expect: work >= 6000000
// expect: work <= 11000000
#include "spend.h"

int main(void) {
    static const int milliseconds[] = {6, 1, 12, 2, 40};
    for (int i = 0; i < 5; i++) {
#pragma omp parallel
#pragma omp single
        {
#pragma omp task
            spend(milliseconds[i]);
        }
    }
    return 0;
}
