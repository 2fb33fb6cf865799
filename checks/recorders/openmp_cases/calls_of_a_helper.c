// A function that makes tasks is called from two others: each has the tasks that it asked for, with what they cost.
// env: SPANPROF_CALL_PATHS=1
// clock: counted
// text: task \{  # calls_of_a_helper.c:\d+ called from solve at calls_of_a_helper.c:\d+\n +work [45]\d{6}\n
// text: task \{  # calls_of_a_helper.c:\d+ called from relax at calls_of_a_helper.c:\d+\n +work [12]\d{6}\n
// no text: called from .* called from
// no text: called from main
// no text: task \{  # calls_of_a_helper.c:\d+\n
// expect: tasks >= 12
#include "spend.h"

static int done;

static void __attribute__((noinline)) spawn(int milliseconds) {
#pragma omp task firstprivate(milliseconds)
    spend(milliseconds);
    done++;
}

static void __attribute__((noinline)) solve(void) {
    for (int i = 0; i < 4; i++) spawn(4);
    done++;
}

static void __attribute__((noinline)) relax(void) {
    for (int i = 0; i < 8; i++) spawn(1);
    done++;
}

int main(void) {
#pragma omp parallel
#pragma omp single
    {
        solve();
        relax();
    }
    return 0;
}
