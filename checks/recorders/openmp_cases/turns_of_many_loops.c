// Of loops within each other all numbers of a turn are handed on, however many there are: with fewer it waits for a
// turn that never comes.
// runtime: gnu
// env: SPANPROF_WHOLE=1
// text: depend
#include "spend.h"

#define ONE(i) for (int i = 0; i < 1; i++)
#define FOUR(i) ONE(i##0) ONE(i##1) ONE(i##2) ONE(i##3)
#define ALL(i) i##0, i##1, i##2, i##3

static int done[4][2];

int main(void) {
    int early = 0;
#pragma omp parallel for num_threads(4) ordered(18) schedule(static, 1)
    for (int i = 0; i < 4; i++)
        FOUR(a) FOUR(b) FOUR(c) FOUR(d)
        for (int last = 0; last < 2; last++) {
#pragma omp ordered depend(sink: i - 1, ALL(a), ALL(b), ALL(c), ALL(d), last)
            spend(1);
            int is_early = i && !done[i - 1][last];
#pragma omp atomic
            early += is_early;
            done[i][last] = 1;
#pragma omp ordered depend(source)
        }
    return early;
}
