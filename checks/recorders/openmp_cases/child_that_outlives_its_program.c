// A child that outlives its program does not hold the program's log, which would be taken for that of a running one.
// says: ^(?!(.*\n)*.*still runs)spanprof recorder: recording to \S+\n(\S+: [a-z].*\n)*\S+out.tasks and \S+out.timed: \d+ tasks
// file: out.tasks out.timed
#include <unistd.h>

#include "spend.h"

int main(void) {
#pragma omp parallel
#pragma omp single
    for (int i = 0; i < 2; i++) {
#pragma omp task
        spend(1);
    }
    if (!fork()) {
        for (int i = 0; i < 3; i++) close(i);   // the check waits for whom it has them
        sleep(5);
    }
    return 0;
}
