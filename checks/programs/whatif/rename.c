/* Each turn draws into one buffer, blurs it into another one, and compares both; rewritten, each has buffers of its own. */
#include "spin.h"

enum { turns = 10 };
static char sharp[turns], soft[turns];  /* only addresses, for depend */

int main(void) {
#pragma omp parallel
#pragma omp single
    for (int turn = 0; turn < turns; turn++) {
#ifdef REWRITTEN
        int at = turn;
#else
        int at = 0;
#endif
#pragma omp task depend(out: sharp[at])
        spin(1500 + 100 * turn);
#pragma omp task depend(in: sharp[at]) depend(out: soft[at])
        spin(3000);
#pragma omp task depend(in: sharp[at], soft[at])
        spin(2000 + 50 * turn);
    }
    return 0;
}
