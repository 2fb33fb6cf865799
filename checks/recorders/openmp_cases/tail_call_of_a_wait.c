// A `taskwait` that ends its function is a jump, so the runtime tells the caller's place: the text says so.
// runtime: llvm
// text: # remark: construct at the line of another, since the compiler kept none of its own, 1 time at tail_call_of_a_wait.c:\d+: work and span are right, places are not: compile with -g -Og, or by clang with -fno-optimize-sibling-calls
// text: taskwait
#include "spend.h"

static void __attribute__((noinline)) make_and_wait(int milliseconds) {
#pragma omp task
    spend(milliseconds);
#pragma omp taskwait
}

int main(int count, char **words) {
    (void)words;
#pragma omp parallel
#pragma omp single
    {
        make_and_wait(count);
        spend(1);
    }
    return 0;
}
