// Code that gcc has optimised tells a construct at the line of a statement before it: so the text says that places may
// be wrong.
// compiler: gcc
// runtime: llvm
// text: # remark: construct in code that gcc has optimised, whose line may be that of a statement before it, 2 times?.*: work and span are right, places may not be: compile with -g -Og
#include "spend.h"

int main(void) {
    static char item[4], last;
    spend(1);
#pragma omp parallel
#pragma omp single
    for (int i = 0; i < 4; i++) {
#pragma omp task depend(out: item[i])
        spend(1);
#pragma omp task depend(inout: item[i]) depend(inout: last)
        spend(1);
    }
    return 0;
}
