// Tasks in tasks, 200 levels deep, each level with a task of 1 ms beside the next: deeper than the ten commands take.
// clock: counted
// expect: tasks = 400
// expect: work >= 200000000
// expect: span <= 30000000
#include "spend.h"

static void level(int below) {
    if (below == 0) return;
#pragma omp task
    spend(1);
#pragma omp task
    level(below - 1);
}

int main(void) {
#pragma omp parallel
#pragma omp single
    level(200);
    return 0;
}
