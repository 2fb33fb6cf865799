// Waves of a lake: each thread binds itself, as if two threads of its processor shared a core and the first of each were
// enough. The repair leaves that to the system.
#define _GNU_SOURCE
#include <omp.h>
#include <sched.h>
#include <stdio.h>
#include <stdlib.h>

enum { width = 1600, height = 1200, steps = 100 };

static void bind(int processor) {
#ifndef FIXED
    cpu_set_t one;
    CPU_ZERO(&one);
    CPU_SET(processor, &one);
    sched_setaffinity(0, sizeof one, &one);
#else
    (void)processor;
#endif
}

static void move(const float *from, float *to, int row) {
    for (int x = 1; x < width - 1; x++) {
        float around = from[row * width + x - 1] + from[row * width + x + 1] + from[(row - 1) * width + x] +
                       from[(row + 1) * width + x];
        to[row * width + x] = 0.96f * (0.5f * around - to[row * width + x]);
        if (around * around > 1e6f) to[row * width + x] /= 1.0f + around * around;
    }
}

int main(void) {
    float *now = calloc(width * height, sizeof *now), *next = calloc(width * height, sizeof *next);
    now[width * height / 2 + width / 2] = 100.0f;
#pragma omp parallel // <- cause
    {
        bind(omp_get_thread_num() / 2);
        for (int step = 0; step < steps; step++) {
#pragma omp for
            for (int row = 1; row < height - 1; row++) move(step % 2 ? next : now, step % 2 ? now : next, row);
        }
    }
    printf("%.6f\n", now[width * height / 2 + width / 2]);
}
