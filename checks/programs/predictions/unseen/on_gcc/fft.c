/* A Fourier transform by halves: a task for the even and one for the odd values, and tasks for pieces of what joins
 * them. */
#include <complex.h>
#include <math.h>
#include <stdio.h>
#include <stdlib.h>

enum { values = 1 << 19, alone = 1 << 11, piece = 1 << 13 };
typedef double complex Number;
static Number root[values / 2];

static void join(Number *out, const Number *even, const Number *odd, int half, int from, int to) {
    int apart = values / 2 / half;
    for (int i = from; i < to; i++) {
        Number turned = root[i * apart] * odd[i];
        out[i] = even[i] + turned;
        out[i + half] = even[i] - turned;
    }
}

static void split(const Number *in, Number *out, int half, int from, int to) {
    for (int i = from; i < to; i++) {
        out[i] = in[2 * i];
        out[i + half] = in[2 * i + 1];
    }
}

static void transform_alone(Number *x, Number *room, int many) {
    if (many == 1) return;
    int half = many / 2;
    split(x, room, half, 0, half);
    transform_alone(room, x, half);
    transform_alone(room + half, x + half, half);
    join(x, room, room + half, half, 0, half);
}

static void transform(Number *x, Number *room, int many) {
    if (many <= alone) return transform_alone(x, room, many);
    int half = many / 2, step = half < piece ? half : piece;
    for (int i = 0; i < half; i += step) {
#pragma omp task
        split(x, room, half, i, i + step);
    }
#pragma omp taskwait
#pragma omp task
    transform(room, x, half);
#pragma omp task
    transform(room + half, x + half, half);
#pragma omp taskwait
    for (int i = 0; i < half; i += step) {
#pragma omp task
        join(x, room, room + half, half, i, i + step);
    }
#pragma omp taskwait
}

int main(void) {
    Number *x = malloc(values * sizeof *x), *room = malloc(values * sizeof *room);
    for (int i = 0; i < values / 2; i++) root[i] = cexp(-2 * I * acos(-1) * i / values);
    for (int i = 0; i < values; i++) x[i] = (i * 7 % 1000) / 1000.0, room[i] = 0;
#pragma omp parallel
#pragma omp single
    transform(x, room, values);
    printf("%.3f %.3f\n", creal(x[1]), cimag(x[values / 3]));
    free(x);
    free(room);
    return 0;
}
