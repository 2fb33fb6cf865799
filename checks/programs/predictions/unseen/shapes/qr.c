/* The QR factorisation of a matrix by tiles: a task makes the reflections of a tile, and tasks apply them to the tiles
 * at its right, ordered by depend; a wait after each step, which this makes needless; rewritten, without it. */
#include <math.h>
#include <stdio.h>

enum { tiles = 12, side = 48 };
typedef double Tile[side][side];
static Tile a[tiles][tiles];
static double by[tiles][tiles][side];   /* what the reflections of each tile are scaled by */

/* The one of a column, of a tile's upper half and the rows of another one from a row on. */
static double reflection(int column, int from, Tile top, Tile below) {
    double was = top[column][column], squares = was * was;
    for (int i = from; i < side; i++) squares += below[i][column] * below[i][column];
    double now = was > 0 ? -sqrt(squares) : sqrt(squares);
    for (int i = from; i < side; i++) below[i][column] /= was - now;
    top[column][column] = now;
    return (now - was) / now;
}

static void reflect(Tile vector, double scale, int column, int from, int first, Tile top, Tile below) {
    double sum[side];
    for (int j = first; j < side; j++) sum[j] = top[column][j];
    for (int i = from; i < side; i++)
        for (int j = first; j < side; j++) sum[j] += vector[i][column] * below[i][j];
    for (int j = first; j < side; j++) top[column][j] -= scale * sum[j];
    for (int i = from; i < side; i++)
        for (int j = first; j < side; j++) below[i][j] -= scale * sum[j] * vector[i][column];
}

static void make(Tile top, Tile below, double *scale) {
    for (int c = 0; c < side; c++) {
        int from = top == below ? c + 1 : 0;
        scale[c] = reflection(c, from, top, below);
        reflect(below, scale[c], c, from, c + 1, top, below);
    }
}

static void apply(Tile vectors, const double *scale, Tile top, Tile below) {
    for (int c = 0; c < side; c++) reflect(vectors, scale[c], c, top == below ? c + 1 : 0, 0, top, below);
}

static void step(int k) {
#pragma omp task depend(inout: a[k][k])
    make(a[k][k], a[k][k], by[k][k]);
    for (int j = k + 1; j < tiles; j++) {
#pragma omp task depend(in: a[k][k]) depend(inout: a[k][j])
        apply(a[k][k], by[k][k], a[k][j], a[k][j]);
    }
    for (int i = k + 1; i < tiles; i++) {
#pragma omp task depend(inout: a[k][k], a[i][k])
        make(a[k][k], a[i][k], by[i][k]);
        for (int j = k + 1; j < tiles; j++) {
#pragma omp task depend(in: a[i][k]) depend(inout: a[k][j], a[i][j])
            apply(a[i][k], by[i][k], a[k][j], a[i][j]);
        }
    }
}

int main(void) {
    unsigned x = 5;
    for (int i = 0; i < tiles * side; i++)
        for (int j = 0; j < tiles * side; j++) {
            x = x * 1664525u + 1013904223u;
            a[i / side][j / side][i % side][j % side] = (x >> 8) * 0x1p-24 - 0.5;
        }
#pragma omp parallel
#pragma omp single
    for (int k = 0; k < tiles; k++) {
        step(k);
#ifndef REWRITTEN
#pragma omp taskwait
#endif
    }
    double sum = 0;
    for (int i = 0; i < tiles * side; i++) sum += log(fabs(a[i / side][i / side][i % side][i % side]));
    printf("%.6f\n", sum);
    return 0;
}
