// How many threads a region asks for, by a number or by the setting, stands beside how many it has.
// needs: LLVM 16
// env: SPANPROF_WHOLE=1
// env: OMP_THREAD_LIMIT=3
// in out.regions: ^1,0,\d+,\d+,2,2,
// in out.regions: ^2,0,\d+,\d+,3,4,
// in out.regions: ^3,0,\d+,\d+,3,4,
#include "spend.h"

int main(void) {
#pragma omp parallel num_threads(2)
    spend(1);
#pragma omp parallel num_threads(4)
    spend(1);
#pragma omp parallel
    spend(1);
    return 0;
}
