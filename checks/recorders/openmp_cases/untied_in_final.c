// An untied task in a final one is left and taken up again while its parent waits: no cost counts twice.
// clock: counted
// expect: work >= 12000000
// expect: work <= 20000000
// text: task if\(0\) \{  # untied_in_final.c:1[56]
#include "spend.h"

int main(void) {
#pragma omp parallel
#pragma omp single
    for (int i = 0; i < 3; i++) {
#pragma omp task final(1)
        {
            spend(1);
            for (int k = 0; k < 3; k++) {
#pragma omp task untied
                spend(1);
            }
#pragma omp taskwait
        }
    }
    return 0;
}
