// Heat spreads over rows of a plate, which get wider downwards. Threads wait for each other after each step in a barrier
// of the program's own, which the runtime does not see. The repair gives each thread as many cells, not as many rows.
#include <math.h>
#include <stdatomic.h>
#include <stdio.h>

enum { threads = 4, rows = 512, steps = 24 };
static double heat[rows][rows], next[rows][rows];
static atomic_int arrived, step;

static void wait_for_all(int now) {
    if (atomic_fetch_add(&arrived, 1) == threads - 1) {
        atomic_store(&arrived, 0);
        atomic_store(&step, now + 1);
    } else {
        while (atomic_load(&step) == now) continue; // <- cause
    }
}

static int first_row(int part) {
#ifdef FIXED
    return (int)(rows * sqrt((double)part / threads));
#else
    return rows * part / threads;
#endif
}

static void spread(int part, int now) {
    double (*from)[rows] = now % 2 ? next : heat, (*to)[rows] = now % 2 ? heat : next;
    for (int i = first_row(part); i < first_row(part + 1); i++)
        for (int j = 0; j <= i; j++) {
            double left = from[i][j ? j - 1 : j], right = from[i][j < i ? j + 1 : j];
            to[i][j] = 0.5 * from[i][j] + 0.25 * (left + right) + 1e-6 * sin(from[i][j] + cos(i + 0.01 * j));
        }
}

int main(void) {
    for (int i = 0; i < rows; i++)
        for (int j = 0; j <= i; j++) heat[i][j] = i % 7 + j % 5;
#pragma omp parallel for num_threads(threads) schedule(static, 1) // <- cause
    for (int part = 0; part < threads; part++)
        for (int now = 0; now < steps; now++) {
            spread(part, now);
            wait_for_all(now);
        }
    double sum = 0;
    for (int i = 0; i < rows; i++) sum += heat[i][i / 2];
    printf("%.9f\n", sum);
}
