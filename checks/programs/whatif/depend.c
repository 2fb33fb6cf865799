/* Two chains of tasks that share a place for their results; rewritten, each task has a place of its own. */
#include "spin.h"

enum { tasks = 24 };
static char place[2];  /* only addresses, for depend */

int main(void) {
#pragma omp parallel
#pragma omp single
    for (int i = 0; i < tasks; i++) {
#ifdef REWRITTEN
#pragma omp task
#else
#pragma omp task depend(out: place[i % 2])
#endif
        spin(2500 + 250 * i);
    }
    return 0;
}
