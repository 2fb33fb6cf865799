// The first thread's part of a loop that is a region stands at the loop, and not at the code behind its call.
// compiler: gcc
// runtime: gnu
// env: SPANPROF_WHOLE=1
// text: turns of the loop at loop_that_is_its_region_by_gcc.c:1[01]
// no text: the loop at loop_that_is_its_region_by_gcc.c:(?!1[01345])
#include "spend.h"

int main(void) {
#pragma omp parallel for schedule(dynamic) num_threads(2)
    for (int i = 0; i < 40; i++) spend(1);

#pragma omp parallel for schedule(dynamic) num_threads(2)
    for (int i = 0; i < 40; i++) spend(1);
    return 0;
}
