// Products of matrices in tasks by blocks, with nothing wrong; the check runs other programs beside it.
#include <stdio.h>

enum { size = 576, block = 48 };
static float a[size][size], b[size][size], c[size][size];

static void product(int top, int left) {
    for (int i = top; i < top + block; i++)
        for (int k = 0; k < size; k++) {
            float factor = a[i][k];
            for (int j = left; j < left + block; j++) c[i][j] += factor * b[k][j];
        }
}

int main(void) {
    for (int i = 0; i < size; i++)
        for (int j = 0; j < size; j++) {
            a[i][j] = (float)((i + j) % 10);
            b[i][j] = (float)((i * j) % 7);
        }
    for (int round = 0; round < 8; round++) {
#pragma omp parallel
#pragma omp single
        for (int top = 0; top < size; top += block)
            for (int left = 0; left < size; left += block) {
#pragma omp task
                product(top, left);
            }
    }
    double sum = 0;
    for (int i = 0; i < size; i++) sum += c[i][i];
    printf("%.1f\n", sum);
}
