/* The longest common subsequence of two texts, by blocks of the table: a task for each block, which depends on those
 * above and to the left. */
#include <stdio.h>
#include <stdlib.h>

enum { letters = 12000, blocks = 24, block = letters / blocks };
static unsigned char first[letters], second[letters];
static int row[blocks][block], column[blocks][block], corner[blocks + 1][blocks + 1];

static int greater(int a, int b) {
    return a > b ? a : b;
}

static void fill(int i, int j) {
    int *above = row[j], *left = column[i], diagonal_of_row = corner[i][j];
    for (int y = 0; y < block; y++) {
        int diagonal = diagonal_of_row, here = left[y];
        diagonal_of_row = left[y];
        for (int x = 0; x < block; x++) {
            int found = first[i * block + y] == second[j * block + x] ? diagonal + 1 : greater(above[x], here);
            diagonal = above[x];
            above[x] = here = found;
        }
        left[y] = here;
    }
    corner[i + 1][j + 1] = above[block - 1];
}

int main(void) {
    srand(3);
    for (int i = 0; i < letters; i++) {
        first[i] = rand() % 6;
        second[i] = rand() % 6;
    }
#pragma omp parallel
#pragma omp single
    for (int i = 0; i < blocks; i++)
        for (int j = 0; j < blocks; j++) {
#pragma omp task depend(inout : row[j][0], column[i][0])
            fill(i, j);
        }
    printf("%d\n", corner[blocks][blocks]);
    return 0;
}
