// The calls that gcc wrote before 4.9: the thread that begins a region runs its own part by itself.
// runtime: gnu
// text: task {  # calls_of_old_gcc.c
// text: task if\(0\) {  # calls_of_old_gcc.c
#include <stdbool.h>
#include <stdlib.h>

void GOMP_parallel_start(void (*)(void *), void *, unsigned);
void GOMP_parallel_loop_dynamic_start(void (*)(void *), void *, unsigned, long, long, long, long);
void GOMP_parallel_end(void);
bool GOMP_loop_dynamic_next(long *, long *);
void GOMP_loop_end_nowait(void);

static int sum;

static void tasks(void *of) {
    (void)of;
#pragma omp single
    {

#pragma omp task
#pragma omp atomic
        sum++;
#pragma omp task if (0)
#pragma omp atomic
        sum++;
    }
}

static void loop(void *of) {
    (void)of;
    long from, to;
    while (GOMP_loop_dynamic_next(&from, &to)) {
#pragma omp atomic
        sum += (int)(to - from);
    }
    GOMP_loop_end_nowait();
}

int main(void) {
    GOMP_parallel_start(tasks, NULL, 3);
    tasks(NULL);
    GOMP_parallel_end();
    GOMP_parallel_loop_dynamic_start(loop, NULL, 2, 0, 10, 1, 1);
    loop(NULL);
    GOMP_parallel_end();
    if (sum != 12) abort();
    return 0;
}
