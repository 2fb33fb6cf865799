/* Cholesky factors of a symmetric matrix in blocks, ordered by depend: cholesky [BLOCKS] */
#include <math.h>
#include <stdio.h>
#include <stdlib.h>

enum { side = 40, most = 16 };
static double matrix[most][most][side][side];

static void factor(double a[side][side]) {
    for (int k = 0; k < side; k++) {
        a[k][k] = sqrt(a[k][k]);
        for (int i = k + 1; i < side; i++) a[i][k] /= a[k][k];
        for (int j = k + 1; j < side; j++)
            for (int i = j; i < side; i++) a[i][j] -= a[i][k] * a[j][k];
    }
}

static void solve(double l[side][side], double a[side][side]) {
    for (int i = 0; i < side; i++)
        for (int j = 0; j < side; j++) {
            for (int k = 0; k < j; k++) a[i][j] -= a[i][k] * l[j][k];
            a[i][j] /= l[j][j];
        }
}

static void update(double a[side][side], double b[side][side], double c[side][side]) {
    for (int i = 0; i < side; i++)
        for (int j = 0; j < side; j++)
            for (int k = 0; k < side; k++) c[i][j] -= a[i][k] * b[j][k];
}

int main(int count, char **words) {
    int n = count > 1 ? atoi(words[1]) : 10;
    if (n < 1 || n > most) return 2;
    for (int i = 0; i < n * side; i++)
        for (int j = 0; j < n * side; j++)
            matrix[i / side][j / side][i % side][j % side] = i == j ? n * side : 1.0 / (1 + abs(i - j));
#pragma omp parallel
#pragma omp single
    for (int k = 0; k < n; k++) {
#pragma omp task depend(inout: matrix[k][k])
        factor(matrix[k][k]);
        for (int i = k + 1; i < n; i++) {
#pragma omp task depend(in: matrix[k][k]) depend(inout: matrix[i][k])
            solve(matrix[k][k], matrix[i][k]);
        }
        for (int i = k + 1; i < n; i++)
            for (int j = k + 1; j <= i; j++) {
#pragma omp task depend(in: matrix[i][k], matrix[j][k]) depend(inout: matrix[i][j])
                update(matrix[i][k], matrix[j][k], matrix[i][j]);
            }
    }
    double corner = 0;  /* the last element of the factor times its transpose */
    for (int j = 0; j < n; j++)
        for (int k = 0; k < side; k++) corner += matrix[n - 1][j][side - 1][k] * matrix[n - 1][j][side - 1][k];
    printf("%.3e\n", fabs(corner - n * side));
    return fabs(corner - n * side) > 1e-9 * n * side;
}
