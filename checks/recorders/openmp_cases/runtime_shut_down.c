// The program shuts its runtime down, and goes on with it anew: what was recorded before is there, and the rest is told
// to be missing.
// runtime: llvm
// says: the log ends \d+.\d ms after recording began, outside of regions
// expect: tasks = 4
// expect: work >= 4000000
// expect: work <= 8000000
// clock: counted
#include <omp.h>

#include "spend.h"

static void region(void) {
#pragma omp parallel
#pragma omp single
    for (int i = 0; i < 4; i++) {
#pragma omp task
        spend(1);
    }
}

int main(void) {
    region();
    omp_pause_resource_all(omp_pause_hard);
    region();
    spend(10);
    return 0;
}
