// The recorder is loaded first, as where a script starts the program: it is called by LLVM's runtime alone then.
// needs: LLVM 16
// preload: recorder
// env: SPANPROF_WHOLE=1
// in out.locks: "kind": "omp_lock", "times": 8, "inside_ns"
// in out.locks: "kind": "critical", "times": 8, "inside_ns"
// in out.regions: ^1,0,\d+,\d+,4,4,8,
#include <omp.h>

#include "spend.h"

static int count;

int main(void) {
    omp_lock_t lock;
    omp_init_lock(&lock);
#pragma omp parallel
#pragma omp single
    for (int i = 0; i < 8; i++) {
#pragma omp task
        {
            omp_set_lock(&lock);
            spend(1);
            omp_unset_lock(&lock);
#pragma omp critical
            count++;
        }
    }
    return 0;
}
