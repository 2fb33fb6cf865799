// Without call paths the tasks of a function that is called from two others have its line alone.
// text: task \{  # calls_that_are_not_asked_for.c:\d+\n
// no text: called from
// expect: tasks >= 2
#include "spend.h"

static int done;

static void __attribute__((noinline)) spawn(void) {
#pragma omp task
    spend(1);
    done++;
}

static void __attribute__((noinline)) solve(void) {
    spawn();
    done++;
}

int main(void) {
#pragma omp parallel
#pragma omp single
    {
        spawn();
        solve();
    }
    return 0;
}
