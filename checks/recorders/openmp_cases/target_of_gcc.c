// gcc's own runtime runs a `target` of gcc's code: said when recording begins, and by the text.
// runtime: llvm
// compiler: gcc
// says: out: target of gcc's code, which its own runtime runs next to LLVM's: work and span too low, and with nowait or depend
// text: # remark: target of gcc's code, which its own runtime runs next to LLVM's: work and span too low, and with nowait
#include <stdio.h>

int main(void) {
    int x = 0;
#pragma omp parallel num_threads(2)
#pragma omp single
    {
#pragma omp target nowait depend(inout: x) map(tofrom: x)
        x++;
#pragma omp task depend(inout: x)
        puts("after it");
    }
    return 0;
}
