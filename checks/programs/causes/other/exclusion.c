// A stiffness matrix is put together from elements: all tasks exclude each other by the whole matrix, though those of
// different strips touch different rows. The repair excludes by the strip.
#include <math.h>
#include <stdio.h>

enum { strips = 8, of_a_strip = 8, rows = 600, points = 60 };
static double matrix[strips][rows];

static double shape(int element, int row, int point) {
    double at = (element * 13 + point) * 0.01;
    return exp(-at * at * 0.001) * cos(row * at);
}

static void assemble(int strip, int element) {
    for (int row = 0; row < rows; row++) {
        double sum = 0;
        for (int point = 0; point < points; point++) sum += shape(element, row, point) * shape(element, row + 1, point);
        matrix[strip][row] += floor(sum * 1e6);
    }
}

int main(void) {
#pragma omp parallel
#pragma omp single
    for (int element = 0; element < of_a_strip; element++)
        for (int strip = 0; strip < strips; strip++) {
#ifdef FIXED
#pragma omp task depend(mutexinoutset : matrix[strip][0])
#else
#pragma omp task depend(mutexinoutset : matrix[0][0]) // <- cause
#endif
            assemble(strip, element * strips + strip);
        }
    double sum = 0;
    for (int strip = 0; strip < strips; strip++)
        for (int row = 0; row < rows; row++) sum += matrix[strip][row];
    printf("%.0f\n", sum);
}
