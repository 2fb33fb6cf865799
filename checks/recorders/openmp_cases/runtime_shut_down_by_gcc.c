// gcc's runtime begins anew after the program shut it down: regions before and behind are recorded alike.
// runtime: gnu
// file: out.tasks out.2.tasks
// expect: tasks = 4
#include <omp.h>

#include "spend.h"

static void region(void) {
#pragma omp parallel
#pragma omp single
    for (int i = 0; i < 4; i++)
#pragma omp task
        spend(1);
}

int main(void) {
    region();
    if (omp_pause_resource_all(omp_pause_hard)) return 1;
    region();
    return 0;
}
