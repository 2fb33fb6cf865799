/* Strassen's product of two matrices: seven smaller products, each a task: strassen [SIZE]
 * SIZE is a power of two. */
#include <math.h>
#include <stdio.h>
#include <stdlib.h>

enum { leaf = 64 };

/* Matrices are n by n, with `step` numbers from row to row. */
static void plain(const double *a, int sa, const double *b, int sb, double *c, int sc, int n) {
    for (int i = 0; i < n; i++) {
        for (int j = 0; j < n; j++) c[i * sc + j] = 0;
        for (int k = 0; k < n; k++)
            for (int j = 0; j < n; j++) c[i * sc + j] += a[i * sa + k] * b[k * sb + j];
    }
}

static double *sum(const double *a, const double *b, double sign, int step, int n) {
    double *out = malloc(n * n * sizeof *out);
    for (int i = 0; i < n; i++)
        for (int j = 0; j < n; j++) out[i * n + j] = a[i * step + j] + (b ? sign * b[i * step + j] : 0);
    return out;
}

static void strassen(const double *a, int sa, const double *b, int sb, double *c, int sc, int n) {
    if (n <= leaf) {
        plain(a, sa, b, sb, c, sc, n);
        return;
    }
    int h = n / 2;
    const double *a11 = a, *a12 = a + h, *a21 = a + h * sa, *a22 = a21 + h;
    const double *b11 = b, *b12 = b + h, *b21 = b + h * sb, *b22 = b21 + h;
    const double *left[7][2] = {{a11, a22}, {a21, a22}, {a11, 0}, {a22, 0}, {a11, a12}, {a21, a11}, {a12, a22}};
    const double *right[7][2] = {{b11, b22}, {b11, 0}, {b12, b22}, {b21, b11}, {b22, 0}, {b11, b12}, {b21, b22}};
    static const double left_sign[7] = {1, 1, 1, 1, 1, -1, -1}, right_sign[7] = {1, 1, -1, -1, 1, 1, 1};
    double *m[7];
    for (int i = 0; i < 7; i++) {
        m[i] = malloc(h * h * sizeof **m);
#pragma omp task shared(m, left, right)
        {
            double *x = sum(left[i][0], left[i][1], left_sign[i], sa, h);
            double *y = sum(right[i][0], right[i][1], right_sign[i], sb, h);
            strassen(x, h, y, h, m[i], h, h);
            free(x);
            free(y);
        }
    }
#pragma omp taskwait
    for (int i = 0; i < h; i++)
        for (int j = 0; j < h; j++) {
            int k = i * h + j;
            c[i * sc + j] = m[0][k] + m[3][k] - m[4][k] + m[6][k];
            c[i * sc + j + h] = m[2][k] + m[4][k];
            c[(i + h) * sc + j] = m[1][k] + m[3][k];
            c[(i + h) * sc + j + h] = m[0][k] - m[1][k] + m[2][k] + m[5][k];
        }
    for (int i = 0; i < 7; i++) free(m[i]);
}

int main(int count, char **words) {
    int n = count > 1 ? atoi(words[1]) : 512;
    double *a = malloc(n * n * sizeof *a), *b = malloc(n * n * sizeof *a), *c = malloc(n * n * sizeof *a);
    for (int i = 0; i < n * n; i++) a[i] = i % 7 - 3, b[i] = i % 5 - 2;
#pragma omp parallel
#pragma omp single
    strassen(a, n, b, n, c, n, n);
    double expected = 0, last = c[n * n - 1];
    for (int k = 0; k < n; k++) expected += a[(n - 1) * n + k] * b[k * n + n - 1];
    printf("%.1f\n", last);
    return fabs(last - expected) > 1e-6;
}
