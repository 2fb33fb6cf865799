/* Shortest paths between all towns, by blocks: a group of tasks for the row and the column of a step, and one for the
 * rest. */
#include <stdio.h>
#include <stdlib.h>

enum { towns = 640, block = 40, blocks = towns / block };
static int far[towns][towns];

static void shorten(int i, int j, int by) {
    for (int k = by * block; k < (by + 1) * block; k++)
        for (int y = i * block; y < (i + 1) * block; y++) {
            int first = far[y][k];
            for (int x = j * block; x < (j + 1) * block; x++) {
                int found = first + far[k][x];
                if (found < far[y][x]) far[y][x] = found;
            }
        }
}

static void cross(int by) {
#pragma omp taskgroup
    for (int i = 0; i < blocks; i++) {
        if (i == by) continue;
#pragma omp task
        shorten(i, by, by);
#pragma omp task
        shorten(by, i, by);
    }
}

static void rest(int by) {
#pragma omp taskgroup
    for (int i = 0; i < blocks; i++)
        for (int j = 0; j < blocks; j++) {
            if (i == by || j == by) continue;
#pragma omp task
            shorten(i, j, by);
        }
}

int main(void) {
    long sum = 0;
    srand(8);
    for (int i = 0; i < towns; i++)
        for (int j = 0; j < towns; j++) far[i][j] = i == j ? 0 : 1 + rand() % 10000;
#pragma omp parallel
#pragma omp single
    for (int by = 0; by < blocks; by++) {
        shorten(by, by, by);
        cross(by);
        rest(by);
    }
    for (int i = 0; i < towns; i++) sum += far[i][(i * 7) % towns];
    printf("%ld\n", sum);
    return 0;
}
