// Heights are smoothed from north to south, column by column of a map that is larger than caches: each step goes on by a
// row, and uses another cache line. The repair swaps both loops.
#include <stdio.h>
#include <stdlib.h>

enum { width = 3000, height = 3000, turns = 3 };

int main(void) {
    float *was = malloc(sizeof *was * width * height), *now = calloc(width * height, sizeof *now);
#pragma omp parallel for
    for (int i = 0; i < width * height; i++) was[i] = (float)(i * 7 % 255);
    for (int turn = 0; turn < turns; turn++) {
#ifdef FIXED
#pragma omp parallel for
        for (int y = 1; y < height - 1; y++)
            for (int x = 0; x < width; x++)
#else
#pragma omp parallel for // <- cause
        for (int x = 0; x < width; x++) // <- cause
            for (int y = 1; y < height - 1; y++) // <- cause
#endif
                now[y * width + x] =
                    0.25f * (was[(y - 1) * width + x] + 2 * was[y * width + x] + was[(y + 1) * width + x]);
        float *other = was;
        was = now;
        now = other;
    }
    double sum = 0;
    for (int i = 0; i < width * height; i += 97) sum += was[i];
    printf("%.3f\n", sum);
}
