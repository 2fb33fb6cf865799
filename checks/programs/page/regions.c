/* A program of several regions: serial code, then steps of time with a region of tasks and one of a loop in each, and at
   last a tree of tasks. Its code spins by the thread's own processor clock. */
#include <time.h>

static double own_milliseconds(void) {
    struct timespec now;
    clock_gettime(CLOCK_THREAD_CPUTIME_ID, &now);
    return now.tv_sec * 1e3 + now.tv_nsec / 1e6;
}

static void spin(double milliseconds) {
    double end = own_milliseconds() + milliseconds;
    while (own_milliseconds() < end) {}
}

static void tasks_of_a_step(void) {
#pragma omp parallel
#pragma omp single
    for (int i = 0; i < 8; i++) {
#pragma omp task
        spin(0.3);
    }
}

static void loop_of_a_step(void) {
#pragma omp parallel for schedule(dynamic, 1)
    for (int i = 0; i < 16; i++) spin(0.1);
}

static void tree(int depth) {
    if (!depth) {
        spin(1);
        return;
    }
#pragma omp task
    tree(depth - 1);
#pragma omp task
    tree(depth - 1);
#pragma omp taskwait
    spin(0.5 * depth);
}

int main(void) {
    spin(30);
    for (int step = 0; step < 60; step++) {
        spin(0.5);
        tasks_of_a_step();
        loop_of_a_step();
    }
#pragma omp parallel
#pragma omp single
    tree(6);
    spin(10);
    return 0;
}
