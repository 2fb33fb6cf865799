/* Sweeps over a cube of cells, a task for each slab, and how much a sweep has changed, which one thread adds up behind
 * it; rewritten, that is a task beside the next sweep. */
#include <math.h>
#include <stdio.h>

enum { side = 128, slabs = 16, thick = side / slabs, sweeps = 12 };
typedef float Cube[side][side][side];
static Cube cube[2];
static double change[sweeps];

static void sweep_slab(Cube from, Cube to, int slab) {
    for (int i = slab * thick; i < (slab + 1) * thick; i++) {
        if (i == 0 || i == side - 1) continue;
        for (int j = 1; j < side - 1; j++)
            for (int k = 1; k < side - 1; k++)
                to[i][j][k] = (from[i - 1][j][k] + from[i + 1][j][k] + from[i][j - 1][k] + from[i][j + 1][k] +
                               from[i][j][k - 1] + from[i][j][k + 1]) / 6;
    }
}

static void add_up(Cube cells, int sweep) {
    double sum = 0;
    for (int i = 1; i < side - 1; i += 2)
        for (int j = 1; j < side - 1; j++)
            for (int k = 1; k < side - 1; k++) sum += fabsf(cells[i][j][k] - cells[i - 1][j][k]);
    change[sweep] = sum;
}

static void sweep(Cube from, Cube to, int number) {
    for (int slab = 0; slab < slabs; slab++) {
#pragma omp task
        sweep_slab(from, to, slab);
    }
#pragma omp taskwait
#ifdef REWRITTEN
#pragma omp task
#endif
    add_up(to, number);
}

int main(void) {
    for (int j = 0; j < side; j++)
        for (int k = 0; k < side; k++) cube[0][0][j][k] = cube[1][0][j][k] = 1 + (j * k) % 7;
#pragma omp parallel
#pragma omp single
    for (int i = 0; i < sweeps; i++) sweep(cube[i % 2], cube[1 - i % 2], i);
    printf("%.4f %.4f\n", change[0], change[sweeps - 1]);
    return 0;
}
