// On one thread every task is undeferred, and the text says so.
// runtime: llvm
// text: # recorded: .*"threads": 1,
// text: # remark: on one thread every task is undeferred \(if\(0\)\), 4 times,? (first )?at one_thread.c:\d+: span too high
// no text: # divided
// expect: parallelism = 1
#include "spend.h"

int main(void) {
#pragma omp parallel num_threads(1)
#pragma omp single
    for (int i = 0; i < 4; i++) {
#pragma omp task
        spend(1);
    }
    return 0;
}
