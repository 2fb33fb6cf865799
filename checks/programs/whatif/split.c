/* Fewer tasks than threads; rewritten, each does its code in four tasks, and waits for them. */
#include "spin.h"

static void code(long length) {
#ifdef REWRITTEN
#pragma omp taskgroup
    for (int part = 0; part < 4; part++) {
#pragma omp task
        spin(length / 4);
    }
#else
    spin(length);
#endif
}

int main(void) {
#pragma omp parallel
#pragma omp single
    for (int i = 0; i < 3; i++) {
#pragma omp task
        code(40000);
    }
    return 0;
}
