// Eight strings of 3,000 points swing for 2,500 steps: each step of each string is a parallel region of a few
// microseconds, and starting and ending it takes as long. The repair has one region, which shares out the strings.
#include <stdio.h>

enum { strings = 8, points = 3000, steps = 2500 };
static double now[strings][points], before[strings][points];

static void step(double *to, const double *from) {
#ifndef FIXED
#pragma omp parallel for schedule(static) // <- cause
#endif
    for (int i = 1; i < points - 1; i++) // <- cause
        to[i] = 2 * from[i] - to[i] + 0.3 * (from[i - 1] - 2 * from[i] + from[i + 1]);
}

int main(void) {
    for (int s = 0; s < strings; s++)
        for (int i = 0; i < points / 10; i++) now[s][i] = before[s][i] = i * 1e-3;
#ifdef FIXED
#pragma omp parallel for schedule(static)
#endif
    for (int s = 0; s < strings; s++)
        for (int i = 0; i < steps; i += 2) {
            step(before[s], now[s]);
            step(now[s], before[s]);
        }
    printf("%.6f\n", now[0][points / 2]);
}
