// program LEVELS LOOPS: a tree of tasks, each of which makes two and waits for them. It prints `over` after the region.
#include <stdlib.h>
#include <unistd.h>

static long loops;

static void spend(void) {
    for (volatile long i = 0; i < loops; i++) {
    }
}

static void tree(int levels) {
    spend();
    if (levels == 0) return;
    for (int i = 0; i < 2; i++) {
#pragma omp task
        tree(levels - 1);
    }
#pragma omp taskwait
    spend();
}

int main(int count, char **words) {
    loops = count > 2 ? atol(words[2]) : 0;
#pragma omp parallel
#pragma omp single
    tree(count > 1 ? atoi(words[1]) : 0);
    return write(1, "over", 4) != 4;
}
