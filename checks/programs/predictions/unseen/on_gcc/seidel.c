/* Steps of Gauss and Seidel on a square of values, a task for each block and step: it depends on its neighbours. */
#include <stdio.h>

enum { side = 768, block = 64, blocks = side / block, steps = 12 };
static double value[side + 2][side + 2];
static char done[blocks + 2][blocks + 2];

static void relax(int i, int j) {
    for (int y = 1 + i * block; y < 1 + (i + 1) * block; y++)
        for (int x = 1 + j * block; x < 1 + (j + 1) * block; x++)
            value[y][x] = 0.2 * (value[y][x] + value[y - 1][x] + value[y + 1][x] + value[y][x - 1] + value[y][x + 1]);
}

int main(void) {
    double sum = 0;
    for (int i = 0; i < side + 2; i++) value[i][0] = value[0][i] = i % 97;
#pragma omp parallel
#pragma omp single
    for (int step = 0; step < steps; step++)
        for (int i = 1; i <= blocks; i++)
            for (int j = 1; j <= blocks; j++) {
#pragma omp task depend(in : done[i - 1][j], done[i][j - 1], done[i + 1][j], done[i][j + 1]) depend(inout : done[i][j])
                relax(i - 1, j - 1);
            }
    for (int i = 1; i <= side; i++) sum += value[i][i];
    printf("%.6f\n", sum);
    return 0;
}
