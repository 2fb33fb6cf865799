/* A picture of the Mandelbrot set, a task for each line; rewritten, a task for six lines. */
#include <stdio.h>

enum { width = 700, height = 720, most = 220 };
#ifdef REWRITTEN
enum { together = 6 };
#else
enum { together = 1 };
#endif
static unsigned char picture[height][width];

static int turns_until_far(double re, double im) {
    double x = 0, y = 0;
    int turn = 0;
    for (; turn < most && x * x + y * y < 4; turn++) {
        double next = x * x - y * y + re;
        y = 2 * x * y + im;
        x = next;
    }
    return turn;
}

static void draw(int line) {
    for (int i = 0; i < width; i++)
        picture[line][i] = turns_until_far(-2.1 + 2.8 * i / width, -1.1 + 1.9 * line / height);
}

int main(void) {
#pragma omp parallel
#pragma omp single
    for (int i = 0; i < height; i += together) {
#pragma omp task
        for (int line = i; line < i + together; line++) draw(line);
    }
    unsigned long sum = 0;
    for (int i = 0; i < height; i++)
        for (int j = 0; j < width; j++) sum = sum * 31 + picture[i][j];
    printf("%lu\n", sum);
    return 0;
}
