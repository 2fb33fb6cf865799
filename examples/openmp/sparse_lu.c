/* LU factors of a matrix of blocks, many of them empty, ordered by depend: sparse_lu [BLOCKS] */
#include <math.h>
#include <stdio.h>
#include <stdlib.h>

enum { side = 32, most = 24 };
typedef double Block[side][side];
static Block *matrix[most][most];

static Block *new_block(int row, int column) {
    Block *b = calloc(1, sizeof *b);
    for (int i = 0; i < side; i++)
        for (int j = 0; j < side; j++)
            (*b)[i][j] = row == column && i == j ? 100 : 1.0 / (1 + (7 * i + 3 * j + row + 2 * column) % 11);
    return b;
}

static void factor(Block a) {
    for (int k = 0; k < side; k++)
        for (int i = k + 1; i < side; i++) {
            a[i][k] /= a[k][k];
            for (int j = k + 1; j < side; j++) a[i][j] -= a[i][k] * a[k][j];
        }
}

static void solve_row(Block d, Block a) {
    for (int k = 0; k < side; k++)
        for (int i = k + 1; i < side; i++)
            for (int j = 0; j < side; j++) a[i][j] -= d[i][k] * a[k][j];
}

static void solve_column(Block d, Block a) {
    for (int i = 0; i < side; i++)
        for (int k = 0; k < side; k++) {
            a[i][k] /= d[k][k];
            for (int j = k + 1; j < side; j++) a[i][j] -= a[i][k] * d[k][j];
        }
}

static void update(Block a, Block b, Block c) {
    for (int i = 0; i < side; i++)
        for (int k = 0; k < side; k++)
            for (int j = 0; j < side; j++) c[i][j] -= a[i][k] * b[k][j];
}

int main(int count, char **words) {
    int n = count > 1 ? atoi(words[1]) : 12;
    if (n < 1 || n > most) return 2;
    for (int i = 0; i < n; i++)
        for (int j = 0; j < n; j++)
            if (abs(i - j) < 2 || (i * j) % 3 == 1) matrix[i][j] = new_block(i, j);
#pragma omp parallel
#pragma omp single
    for (int k = 0; k < n; k++) {
#pragma omp task depend(inout: matrix[k][k])
        factor(*matrix[k][k]);
        for (int j = k + 1; j < n; j++) {
            if (!matrix[k][j]) continue;
#pragma omp task depend(in: matrix[k][k]) depend(inout: matrix[k][j])
            solve_row(*matrix[k][k], *matrix[k][j]);
        }
        for (int i = k + 1; i < n; i++) {
            if (!matrix[i][k]) continue;
#pragma omp task depend(in: matrix[k][k]) depend(inout: matrix[i][k])
            solve_column(*matrix[k][k], *matrix[i][k]);
        }
        for (int i = k + 1; i < n; i++)
            for (int j = k + 1; j < n; j++) {
                if (!matrix[i][k] || !matrix[k][j]) continue;
                if (!matrix[i][j]) matrix[i][j] = calloc(1, sizeof(Block));
#pragma omp task depend(in: matrix[i][k], matrix[k][j]) depend(inout: matrix[i][j])
                update(*matrix[i][k], *matrix[k][j], *matrix[i][j]);
            }
    }
    double sum = 0;
    for (int k = 0; k < n; k++)
        for (int i = 0; i < side; i++) sum += log(fabs((*matrix[k][k])[i][i]));
    printf("%.6f\n", sum);
    return 0;
}
