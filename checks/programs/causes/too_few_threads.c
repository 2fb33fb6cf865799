// A set of Julia by rows: the region asks for two threads, as many as an older machine had. The repair has as
// many as there are processors.
#include <omp.h>
#include <stdio.h>

enum { size = 1200, most = 600 };
static int steps[size][size];

static void row(int y) {
    for (int x = 0; x < size; x++) {
        double re = 3.0 * x / size - 1.5, im = 2.4 * y / size - 1.2;
        int step = 0;
        for (; step < most && re * re + im * im < 4; step++) {
            double next = re * re - im * im - 0.4;
            im = 2 * re * im + 0.6;
            re = next;
        }
        steps[y][x] = step;
    }
}

int main(void) {
#ifdef FIXED
    int threads = omp_get_num_procs();
#else
    int threads = 2;
#endif
#pragma omp parallel num_threads(threads) // <- cause
#pragma omp single
    for (int y = 0; y < size; y++) {
#pragma omp task
        row(y);
    }
    long sum = 0;
    for (int y = 0; y < size; y++)
        for (int x = 0; x < size; x++) sum += steps[y][x];
    printf("%ld\n", sum);
}
