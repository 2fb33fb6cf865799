// With -O2 gcc gives all constructs of a region the line of `parallel`: the places are wrong, and the text says so.
// compiler: gcc
// runtime: llvm
// text: # remark: construct at the line of another, since the compiler kept none of its own, \d+ times?.*: work and span are right, places are not: compile with -g -Og
// text: depend
#include "spend.h"

int main(void) {
    int x;
#pragma omp parallel
#pragma omp single
    {
#pragma omp task depend(out: x)
        spend(1);
#pragma omp task depend(in: x)
        spend(1);
#pragma omp taskwait
        spend(1);
    }
    return 0;
}
