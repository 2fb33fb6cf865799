/* Steps over blocks of which each reads its neighbours'; rewritten, tasks that only read say so. */
#include "spin.h"

enum { steps = 6, blocks = 12 };
static char old[blocks], next[blocks];  /* only addresses, for depend */

int main(void) {
#pragma omp parallel
#pragma omp single
    for (int step = 0; step < steps; step++) {
        for (int i = 0; i < blocks; i++) {
            int left = (i + blocks - 1) % blocks, right = (i + 1) % blocks;
#ifdef REWRITTEN
#pragma omp task depend(in: old[left], old[i], old[right]) depend(out: next[i])
#else
#pragma omp task depend(inout: old[left], old[i], old[right]) depend(out: next[i])
#endif
            spin(2000 + 100 * i);
        }
        for (int i = 0; i < blocks; i++) {
#pragma omp task depend(in: next[i]) depend(out: old[i])
            spin(300);
        }
    }
    return 0;
}
