/* Poisson's equation on a square by multigrid: each pass over a level is a taskloop over its rows, and the coarsest
 * levels have a row or a few; rewritten, its tasks have four times as many rows. */
#include <math.h>
#include <stdio.h>
#include <string.h>

enum { levels = 8, finest = (4 << levels) / 2 + 1, cycles = 8, passes = 2 };
#ifdef REWRITTEN
enum { rows_of_a_task = 32 };
#else
enum { rows_of_a_task = 8 };
#endif
typedef struct {
    int side;
    double u[finest][finest], next[finest][finest], f[finest][finest];
} Level;
static Level level[levels];     /* the finest one first */

static void smooth(int number, int i) {
    Level *at = &level[number];
    double h = 1.0 / (at->side - 1);
    for (int j = 1; j < at->side - 1; j++) {
        double around = at->u[i - 1][j] + at->u[i + 1][j] + at->u[i][j - 1] + at->u[i][j + 1];
        at->next[i][j] = 0.2 * at->u[i][j] + 0.2 * (around + h * h * at->f[i][j]);
    }
}

static void take(int number, int i) {
    Level *at = &level[number];
    memcpy(at->u[i], at->next[i], at->side * sizeof(double));
}

static double residual(const Level *at, int i, int j) {
    double h = 1.0 / (at->side - 1);
    double around = at->u[i - 1][j] + at->u[i + 1][j] + at->u[i][j - 1] + at->u[i][j + 1];
    return at->f[i][j] - (4 * at->u[i][j] - around) / (h * h);
}

/* What is left at this level, on the next one. */
static void restrict_row(int number, int i) {
    Level *fine = &level[number], *coarse = &level[number + 1];
    for (int j = 1; j < coarse->side - 1; j++) {
        int k = 2 * i, l = 2 * j;
        coarse->f[i][j] = 0.25 * residual(fine, k, l) +
            0.125 * (residual(fine, k - 1, l) + residual(fine, k + 1, l) + residual(fine, k, l - 1) +
                     residual(fine, k, l + 1)) +
            0.0625 * (residual(fine, k - 1, l - 1) + residual(fine, k - 1, l + 1) + residual(fine, k + 1, l - 1) +
                      residual(fine, k + 1, l + 1));
        coarse->u[i][j] = 0;
    }
}

static void correct(int number, int i) {
    Level *fine = &level[number], *coarse = &level[number + 1];
    for (int j = 1; j < fine->side - 1; j++) {
        const double *up = &coarse->u[i / 2][j / 2], *down = &coarse->u[(i + 1) / 2][j / 2];
        fine->u[i][j] += 0.25 * (up[0] + up[j % 2] + down[0] + down[j % 2]);
    }
}

static void pass(void (*row)(int, int), int number, int rows) {
#pragma omp taskloop grainsize(rows_of_a_task)
    for (int i = 1; i <= rows; i++) row(number, i);
}

static void smooth_all(int number, int times) {
    for (int i = 0; i < times; i++) {
        pass(smooth, number, level[number].side - 2);
        pass(take, number, level[number].side - 2);
    }
}

static void cycle(int number) {
    smooth_all(number, number == levels - 1 ? 8 * passes : passes);
    if (number == levels - 1) return;
    pass(restrict_row, number, level[number + 1].side - 2);
    cycle(number + 1);
    pass(correct, number, level[number].side - 2);
    smooth_all(number, passes);
}

int main(void) {
    for (int i = 0; i < levels; i++) level[i].side = ((finest - 1) >> i) + 1;
    for (int i = 1; i < finest - 1; i++)
        for (int j = 1; j < finest - 1; j++) level[0].f[i][j] = sin(0.01 * i) * cos(0.02 * j) + (i * j % 7 == 0);
#pragma omp parallel
#pragma omp single
    for (int i = 0; i < cycles; i++) cycle(0);
    printf("%.12f\n", level[0].u[finest / 2][finest / 3]);
    return 0;
}
