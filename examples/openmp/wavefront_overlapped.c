/* Sweeps over a grid of blocks, each after its upper and its left neighbour; a sweep may begin before the last one is
 * over: wavefront_overlapped. After the change told in docs/TUNING.md; before it: wavefront.c. */
#include <stdio.h>

enum { blocks = 8, side = 120, sweeps = 6, size = blocks * side };
static double grid[size + 1][size + 1];
static char done[blocks + 1][blocks + 1];  /* only addresses, for depend */

static void relax(int row, int column) {
    for (int i = row * side + 1; i <= (row + 1) * side; i++)
        for (int j = column * side + 1; j <= (column + 1) * side; j++)
            grid[i][j] = (grid[i][j] + grid[i - 1][j] + grid[i][j - 1]) / 3;
}

int main(void) {
    for (int i = 0; i <= size; i++) for (int j = 0; j <= size; j++) grid[i][j] = !i || !j;
#pragma omp parallel
#pragma omp single
    for (int sweep = 0; sweep < sweeps; sweep++) {
        for (int row = 0; row < blocks; row++)
            for (int column = 0; column < blocks; column++) {
#pragma omp task depend(in: done[row][column + 1], done[row + 1][column]) depend(inout: done[row + 1][column + 1])
                relax(row, column);
            }
    }
    double sum = 0;
    for (int i = 0; i <= size; i++)
        for (int j = 0; j <= size; j++) sum += grid[i][j];
    printf("%.6f\n", sum);
    return 0;
}
