/* How many bases of a molecule pair, without crossings (Nussinov): a task for each block of a triangle of
 * subsequences, which depends on the blocks at its left and below; rewritten, what a block takes from the blocks
 * between is divided among four tasks. */
#include <stdio.h>

enum { side = 32, blocks = 30, length = side * blocks, least_loop = 3 };
#ifdef REWRITTEN
enum { pieces = 4 };
#else
enum { pieces = 1 };
#endif
static char base[length], block[blocks + 1][blocks + 1];    /* of the blocks only addresses, for depend */
static int pairs[length + 1][length];               /* from the first base to the second one */

static int greater(int a, int b) {
    return a > b ? a : b;
}

static int pair(int i, int j) {
    return j - i > least_loop && base[i] + base[j] == 3;
}

/* Divides the subsequences of these rows at each base between both blocks. */
static __attribute__((noinline)) void divide(int first, int last, int top, int right) {
    for (int i = first; i < last; i++)
        for (int k = (top + 1) * side; k < right * side - 1; k++) {
            int left = pairs[i][k];
            for (int j = right * side; j < (right + 1) * side; j++)
                pairs[i][j] = greater(pairs[i][j], left + pairs[k + 1][j]);
        }
}

static int longest_of(int i, int j, int top, int right) {
    int most = pairs[i][j];
    if (j > i) most = greater(most, pairs[i + 1][j - 1] + pair(i, j));
    for (int k = i; k < j && k < (top + 1) * side; k++) most = greater(most, pairs[i][k] + pairs[k + 1][j]);
    for (int k = greater(i, right * side - 1); k < j; k++) most = greater(most, pairs[i][k] + pairs[k + 1][j]);
    return most;
}

static void finish(int top, int right) {
    for (int i = (top + 1) * side - 1; i >= top * side; i--)
        for (int j = greater(right * side, i); j < (right + 1) * side; j++) pairs[i][j] = longest_of(i, j, top, right);
}

static void fill(int top, int right) {
    int parts = right - top > 1 ? pieces : 1, rows = side / parts, begin = top * side;
    for (int p = 0; p < parts - 1; p++) {
#pragma omp task
        divide(begin + p * rows, begin + (p + 1) * rows, top, right);
    }
    divide(begin + (parts - 1) * rows, begin + side, top, right);
#pragma omp taskwait
    finish(top, right);
}

int main(void) {
    unsigned x = 9;
    for (int i = 0; i < length; i++) {
        x = x * 1664525u + 1013904223u;
        base[i] = x >> 30;
    }
#pragma omp parallel
#pragma omp single
    for (int apart = 0; apart < blocks; apart++)
        for (int top = 0; top + apart < blocks; top++) {
            int right = top + apart;
#pragma omp task depend(in: block[top][right], block[top + 1][right + 1]) depend(out: block[top][right + 1])
            fill(top, right);
        }
    printf("%d\n", pairs[0][length - 1]);
    return 0;
}
