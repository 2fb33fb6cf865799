// The place of a task that a tail call makes is lost, and no place inside the runtime stands for it.
// no text: __kmp|GOMP_
// expect: tasks = 8
#include "spend.h"

static void __attribute__((noinline)) make_one(void) {
#pragma omp task
    spend(0);
}

int main(void) {
#pragma omp parallel
#pragma omp single
    for (int i = 0; i < 8; i++) make_one();
    return 0;
}
