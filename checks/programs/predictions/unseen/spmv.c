/* The greatest eigenvalue of a sparse matrix with rows of many lengths, a task for each block of rows; rewritten, a
 * task for four blocks. */
#include <math.h>
#include <stdio.h>
#include <stdlib.h>

enum { rows = 96000, most = 40, blocks = 64, block = rows / blocks, steps = 30 };
#ifdef REWRITTEN
enum { together = 4 };
#else
enum { together = 1 };
#endif
static int begin[rows + 1], column[rows * most];
static double entry[rows * most], from[rows], to[rows], squares[blocks];

static void make_matrix(void) {
    srand(21);
    for (int i = 0; i < rows; i++) {
        int many = 2 + rand() % 8 + (i % 50 == 0 ? 30 : 0);
        begin[i + 1] = begin[i] + many;
        for (int at = begin[i]; at < begin[i + 1]; at++) {
            column[at] = (i + rand() % 20000) % rows;
            entry[at] = 1.0 / (1 + rand() % 9);
        }
        from[i] = 1;
    }
}

static void product(int which) {
    double sum = 0;
    for (int i = which * block; i < (which + 1) * block; i++) {
        double y = 0;
        for (int at = begin[i]; at < begin[i + 1]; at++) y += entry[at] * from[column[at]];
        to[i] = y;
        sum += y * y;
    }
    squares[which] = sum;
}

static void scale(int which, double by) {
    for (int i = which * block; i < (which + 1) * block; i++) from[i] = to[i] * by;
}

static double step(void) {
    for (int i = 0; i < blocks; i += together) {
#pragma omp task
        for (int j = i; j < i + together; j++) product(j);
    }
#pragma omp taskwait
    double sum = 0;
    for (int i = 0; i < blocks; i++) sum += squares[i];
    double length = sqrt(sum);
    for (int i = 0; i < blocks; i += together) {
#pragma omp task
        for (int j = i; j < i + together; j++) scale(j, 1 / length);
    }
#pragma omp taskwait
    return length;
}

int main(void) {
    double length = 0;
    make_matrix();
#pragma omp parallel
#pragma omp single
    for (int i = 0; i < steps; i++) length = step();
    printf("%.9f\n", length);
    return 0;
}
