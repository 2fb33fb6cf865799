/* A tree of tasks down to its leaves; rewritten, below depth 4 there are no more tasks. */
#include "spin.h"

enum { depth = 8, leaf = 500 };

static void alone(int at) {
    if (at == depth) return spin(leaf);
    alone(at + 1);
    alone(at + 1);
}

static void grow(int at) {
#ifdef REWRITTEN
    if (at == 4) return alone(at);
#endif
    if (at == depth) return spin(leaf);
#pragma omp task
    grow(at + 1);
#pragma omp task
    grow(at + 1);
#pragma omp taskwait
    spin(1);
}

int main(void) {
#pragma omp parallel
#pragma omp single
    grow(0);
    return 0;
}
