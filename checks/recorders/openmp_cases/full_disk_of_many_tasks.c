// Where there was no room for the whole log, the text is what is left of the region.
// One thread makes all records, so that its log meets the limit however fast the machine is.
// env: OMP_NUM_THREADS=1
// text: # remark: the records were full inside the region
// expect: tasks >= 4097
#include <sys/resource.h>

#include "spend.h"

int main(void) {
    struct rlimit most = {400000, 400000};
    setrlimit(RLIMIT_FSIZE, &most);
#pragma omp parallel
#pragma omp single
    for (int i = 0; i < 40000; i++) {
#pragma omp task
        spend(0);
    }
    return 0;
}
