// A task with more depend items than a text of the ten commands takes: all are kept.
// needs: LLVM 16
// text: depend\(in: (\w+, ){99}\w+\)
// no text: left out
// expect: tasks = 101
#include "spend.h"

static char place[100];

int main(void) {
    (void)place;
#pragma omp parallel
#pragma omp single
    {
        for (int i = 0; i < 100; i++) {
#pragma omp task depend(out: place[i])
            spend(0);
        }
#pragma omp task depend(iterator(k = 0:100), in: place[k])
        spend(1);
    }
    return 0;
}
