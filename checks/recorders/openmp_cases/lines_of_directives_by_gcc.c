// On its own runtime a task of gcc's code has the line of its directive, or of the statement below it, optimised or not.
// compiler: gcc
// runtime: gnu
// text: task depend\(inout: a0\) {  # lines_of_directives_by_gcc.c:1[67]\n
// text: task depend\(in: a0\) {  # lines_of_directives_by_gcc.c:1[89]\n
// no text: # remark: construct
#include "spend.h"

int main(void) {
    int x;
    spend(1);
#pragma omp parallel
#pragma omp single
    {
        spend(1);
#pragma omp task depend(out: x)
        spend(1);
#pragma omp task depend(in: x)
        spend(1);
    }
    return 0;
}
