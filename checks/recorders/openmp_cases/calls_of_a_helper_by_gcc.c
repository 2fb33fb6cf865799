// The same of gcc's code, which runs on LLVM's runtime: with optimisation it keeps no frame pointer, and makes
// undeferred tasks inside the runtime.
// compiler: gcc
// env: SPANPROF_CALL_PATHS=1
// clock: counted
// text: task \{  # calls_of_a_helper_by_gcc.c:\d+ called from solve at calls_of_a_helper_by_gcc.c:\d+\n +work [45]\d{6}\n
// text: task \{  # calls_of_a_helper_by_gcc.c:\d+ called from relax at calls_of_a_helper_by_gcc.c:\d+\n +work [12]\d{6}\n
// text: task if\(0\) \{  # calls_of_a_helper_by_gcc.c:\d+ called from solve at calls_of_a_helper_by_gcc.c:\d+\n
// text: task if\(0\) \{  # calls_of_a_helper_by_gcc.c:\d+ called from relax at calls_of_a_helper_by_gcc.c:\d+\n
// no text: called from .* called from
// expect: tasks >= 14
#include "spend.h"

static int done;

static void __attribute__((noinline)) spawn(int milliseconds, int at_once) {
#pragma omp task firstprivate(milliseconds) if(!at_once)
    spend(milliseconds);
    done++;
}

static void __attribute__((noinline)) solve(void) {
    for (int i = 0; i < 4; i++) spawn(4, 0);
    spawn(4, 1);
    done++;
}

static void __attribute__((noinline)) relax(void) {
    for (int i = 0; i < 8; i++) spawn(1, 0);
    spawn(1, 1);
    done++;
}

int main(void) {
#pragma omp parallel
#pragma omp single
    {
        solve();
        relax();
    }
    return 0;
}
