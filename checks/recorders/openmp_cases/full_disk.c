// There is no room for the whole log: a word says so when it happens, and the text says so too. The limit stands for a
// full disk. One thread makes all records, so that its log meets the limit however fast the machine is, and before there
// are more tasks than a text of spanprof may have.
// env: OMP_NUM_THREADS=1
// says: spanprof recorder: the disk is full, and what follows is not recorded
// says: the disk was full \d+.\d ms after recording began, and what followed is not recorded
// text: # remark: the records were full inside the region: work and span too low
#include <sys/resource.h>

#include "spend.h"

int main(void) {
    struct rlimit most = {150000, 150000};
    setrlimit(RLIMIT_FSIZE, &most);
#pragma omp parallel
#pragma omp single
    for (int i = 0; i < 5000; i++) {
#pragma omp task
        spend(0);
#pragma omp taskwait
#pragma omp taskwait
    }
    return 0;
}
