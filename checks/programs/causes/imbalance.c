// Distances of all pairs of measured series: each task has as many rows of the lower triangle as the others, so the
// last has seven times as much to do as the first. The repair gives each as many pairs.
#include <math.h>
#include <omp.h>
#include <stdio.h>
#include <stdlib.h>

enum { series = 1400, length = 300 };
static float measured[series][length];
static double nearest[series];

static double distance(const float *one, const float *other) {
    double sum = 0;
    for (int i = 0; i < length; i++) sum += fabsf(one[i] - other[i]);
    return sum;
}

static void rows(int first, int last) {
    for (int row = first; row < last; row++) {
        nearest[row] = 1e30;
        for (int other = 0; other < row; other++) {
            double found = distance(measured[row], measured[other]);
            if (found < nearest[row]) nearest[row] = found;
        }
    }
}

// The first row of a part.
static int begin_of(int part, int parts) {
#ifdef FIXED
    return (int)(series * sqrt((double)part / parts));
#else
    return series * part / parts;
#endif
}

int main(void) {
    unsigned state = 7;
    for (int i = 0; i < series; i++)
        for (int k = 0; k < length; k++) {
            state = state * 1664525 + 1013904223;
            measured[i][k] = (state >> 8) / 16777216.0f;
        }
#pragma omp parallel
#pragma omp single
    {
        int parts = omp_get_num_threads();
        for (int part = 0; part < parts; part++) {
#pragma omp task // <- cause
            rows(begin_of(part, parts), begin_of(part + 1, parts));
        }
    }
    double sum = 0;
    for (int i = 1; i < series; i++) sum += nearest[i];
    printf("%.6f\n", sum);
}
