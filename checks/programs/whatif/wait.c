/* Rounds of tasks of which one is long, a chain for each column; rewritten, no round waits for the one before it. */
#include "spin.h"

enum { rounds = 8, columns = 6 };
static char done[columns];  /* only addresses, for depend */

int main(void) {
#pragma omp parallel
#pragma omp single
    for (int round = 0; round < rounds; round++) {
        for (int column = 0; column < columns; column++) {
#pragma omp task depend(inout: done[column])
            spin(column == round % columns ? 2500 : 500);
        }
#ifndef REWRITTEN
#pragma omp taskwait
#endif
    }
    return 0;
}
