/* Smooths images, a task for each, through one of two buffers, which a task has for itself (depend); rewritten, each
 * task has a buffer of its own, and needs no order. */
#include <stdio.h>

enum { images = 48, side = 192, taps = 9 };
typedef float Image[side][side];
static Image image[images], buffer[images];
#ifdef REWRITTEN
enum { buffers = images };
#else
enum { buffers = 2 };
#endif
static const float tap[taps] = {0.03f, 0.07f, 0.12f, 0.18f, 0.2f, 0.18f, 0.12f, 0.07f, 0.03f};

static void along(Image from, Image to) {
    for (int i = 0; i < side; i++)
        for (int j = 0; j + taps <= side; j++) {
            float sum = 0;
            for (int t = 0; t < taps; t++) sum += tap[t] * from[i][j + t];
            to[i][j + taps / 2] = sum;
        }
}

static void across(Image from, Image to) {
    for (int i = 0; i + taps <= side; i++)
        for (int j = 0; j < side; j++) {
            float sum = 0;
            for (int t = 0; t < taps; t++) sum += tap[t] * from[i + t][j];
            to[i + taps / 2][j] = sum;
        }
}

static void smooth(Image one, Image through, int turns) {
    for (int turn = 0; turn < turns; turn++) {
        along(one, through);
        across(through, one);
    }
}

int main(void) {
    for (int n = 0; n < images; n++)
        for (int i = 0; i < side; i++)
            for (int j = 0; j < side; j++) image[n][i][j] = (n * 7 + i * 31 + j * j) % 256;
#pragma omp parallel
#pragma omp single
    for (int i = 0; i < images; i++) {
#ifdef REWRITTEN
#pragma omp task
#else
#pragma omp task depend(inout: buffer[i % buffers])
#endif
        smooth(image[i], buffer[i % buffers], 4 + i % 9);
    }
    double sum = 0;
    for (int n = 0; n < images; n++) sum += image[n][100][100];
    printf("%.4f\n", sum);
    return 0;
}
