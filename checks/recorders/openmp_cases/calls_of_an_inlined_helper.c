// A function that makes tasks is put into those that call it: they count as its callers.
// env: SPANPROF_CALL_PATHS=1
// text: task \{  # calls_of_an_inlined_helper.c:\d+ called from solve at calls_of_an_inlined_helper.c:\d+\n
// text: task \{  # calls_of_an_inlined_helper.c:\d+ called from relax at calls_of_an_inlined_helper.c:\d+\n
// no text: task \{  # calls_of_an_inlined_helper.c:\d+\n
// expect: tasks >= 12
#include "spend.h"

static int done;

static inline void __attribute__((always_inline)) spawn(int milliseconds) {
#pragma omp task firstprivate(milliseconds)
    spend(milliseconds);
}

static void __attribute__((noinline)) solve(void) {
    for (int i = 0; i < 4; i++) spawn(1);
    done++;
}

static void __attribute__((noinline)) relax(void) {
    for (int i = 0; i < 8; i++) spawn(1);
    done++;
}

int main(void) {
#pragma omp parallel
#pragma omp single
    {
        solve();
        relax();
    }
    return 0;
}
