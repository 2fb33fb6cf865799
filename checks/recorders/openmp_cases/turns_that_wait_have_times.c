// Turns of loops that wait for each other are tasks with `depend` of the whole program, and the run is one of these.
// needs: LLVM 16
// env: SPANPROF_WHOLE=1
// env: SPANPROF_TIMES=1
// file: out.timed
// text: depend\(.*# turns of the loop at turns_that_wait_have_times.c:\d+
#include "spend.h"

static void chain(void) {
#pragma omp for ordered schedule(dynamic, 1)
    for (int i = 0; i < 24; i++) {
        spend(1);
#pragma omp ordered
        spend(0);
    }
}

static void grid(void) {
#pragma omp for ordered(2) schedule(static, 1)
    for (int i = 0; i < 8; i++)
        for (int j = 0; j < 8; j++) {
#pragma omp ordered depend(sink: i - 1, j) depend(sink: i, j - 1)
            spend(1);
#pragma omp ordered depend(source)
        }
}

int main(void) {
#pragma omp parallel
    {
        chain();
        grid();
    }
    return 0;
}
