// More tasks with dependences than the ten commands take.
// expect: tasks = 5000
#include "spend.h"

static char place[5000];

int main(void) {
    (void)place;
#pragma omp parallel
#pragma omp single
    for (int i = 0; i < 5000; i++) {
#pragma omp task depend(inout: place[i])
        spend(0);
    }
    return 0;
}
