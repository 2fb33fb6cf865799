/* The pictures of a film go through three tasks, which unpack one, smooth its rows in a taskloop, and add it to the
 * output, in order; all go through the same two buffers; rewritten, through rings of eight. */
#include <stdio.h>
#include <stdlib.h>

enum { width = 320, height = 240, pictures = 48, rows_of_a_task = 60, edge = 2, codes = 4096 };
#ifdef REWRITTEN
enum { ring = 8 };
#else
enum { ring = 1 };
#endif
typedef unsigned char Picture[height][width];
static Picture *plain, *smooth;
static unsigned char packed[pictures][codes][2];    /* how many points of which shade */
static unsigned long output;

static void unpack(int number, Picture to) {
    unsigned char *at = &to[0][0], *end = at + width * height;
    for (int code = 0; at < end; code = (code + 1) % codes)
        for (int i = packed[number][code][0]; i > 0 && at < end; i--) *at++ = packed[number][code][1] ^ (i & 3);
}

static int mean_around(Picture from, int row, int column) {
    int top = row < edge ? 0 : row - edge, bottom = row + edge < height ? row + edge + 1 : height;
    int left = column < edge ? 0 : column - edge, right = column + edge < width ? column + edge + 1 : width, sum = 0;
    for (int i = top; i < bottom; i++)
        for (int j = left; j < right; j++) sum += from[i][j];
    return sum / ((bottom - top) * (right - left));
}

static void smooth_row(Picture from, Picture to, int row) {
    for (int column = 0; column < width; column++) to[row][column] = mean_around(from, row, column);
}

static void smooth_all(Picture from, Picture to) {
#pragma omp taskloop grainsize(rows_of_a_task)
    for (int i = 0; i < height; i++) smooth_row(from, to, i);
}

static void add(Picture from) {
    unsigned long sum = output;
    for (int i = 0; i < height; i++)
        for (int j = 0; j < width; j++) sum = (sum ^ from[i][j]) * 1099511628211ul;
    output = sum;
}

int main(void) {
    unsigned x = 21;
    plain = malloc(ring * sizeof(Picture));
    smooth = malloc(ring * sizeof(Picture));
    for (int i = 0; i < pictures * codes; i++) {
        x = x * 1664525u + 1013904223u;
        packed[i / codes][i % codes][0] = 1 + (x >> 27);
        packed[i / codes][i % codes][1] = x >> 16;
    }
#pragma omp parallel
#pragma omp single
    for (int number = 0; number < pictures; number++) {
        int at = number % ring;
#pragma omp task depend(out: plain[at])
        unpack(number, plain[at]);
#pragma omp task depend(in: plain[at]) depend(out: smooth[at])
        smooth_all(plain[at], smooth[at]);
#pragma omp task depend(in: smooth[at]) depend(inout: output)
        add(smooth[at]);
    }
    printf("%lu\n", output);
    return 0;
}
