// runtime: llvm
// needs: LLVM 16
// text: # remark: dependence on all memory, left out, 1 time at all_memory.c:\d+: span too low
#include <omp.h>

#include "spend.h"

int main(void) {
    int place = 0;
    (void)place;
#pragma omp parallel
#pragma omp single
    {
#pragma omp task depend(out: place)
        spend(1);
#pragma omp task depend(inout: omp_all_memory)
        spend(1);
    }
    return 0;
}
