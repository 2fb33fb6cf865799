// Many independent tasks: all are in the text, with their costs.
// clock: counted
// expect: tasks = 200000
// expect: work >= 190000000
// expect: parallelism >= 1.2
#include "spend.h"

int main(void) {
#pragma omp parallel
#pragma omp single
    for (int i = 0; i < 200000; i++) {
#pragma omp task
        for (int k = 0; k < 10; k++) spent();
    }
    return 0;
}
