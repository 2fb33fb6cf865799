// Blocks of a matrix times a vector, again and again: tasks below 5,000 rows are not worth it on another machine, and
// here each has 500, so none is deferred. The repair has another bound.
#include <math.h>
#include <stdio.h>

enum { rows = 6000, columns = 400, block = 500, rounds = 5 };
static double matrix[rows][columns], in[columns], out[rows];
#ifdef FIXED
static const int worth = 100;
#else
static const int worth = 5000;
#endif

static void multiply(int first, int last) {
    for (int row = first; row < last; row++) {
        double sum = 0;
        for (int column = 0; column < columns; column++) sum += matrix[row][column] * sin(in[column] + row);
        out[row] = sum;
    }
}

static void product(void) {
    for (int first = 0; first < rows; first += block) {
        int size = first + block < rows ? block : rows - first;
#pragma omp task if (size >= worth) // <- cause
        multiply(first, first + size);
    }
#pragma omp taskwait
}

int main(void) {
    for (int row = 0; row < rows; row++)
        for (int column = 0; column < columns; column++) matrix[row][column] = (row * 3 + column) % 17 * 0.01;
    for (int column = 0; column < columns; column++) in[column] = 1;
#pragma omp parallel
#pragma omp single
    for (int round = 0; round < rounds; round++) {
        product();
        for (int column = 0; column < columns; column++) in[column] = 0.5 * (in[column] + out[column * 7] * 0.1);
    }
    double sum = 0;
    for (int row = 0; row < rows; row++) sum += out[row];
    printf("%.6f\n", sum);
}
