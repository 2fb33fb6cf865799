// Code that takes so many milliseconds of processor time. Samples take some of it, by up to 23 us each 4 ms, and are no
// cost: where costs are measured a tenth less is expected.
#pragma once
#include <time.h>

static inline long long spent(void) {
    struct timespec t;
    clock_gettime(CLOCK_THREAD_CPUTIME_ID, &t);
    return t.tv_sec * 1000000000LL + t.tv_nsec;
}

static void __attribute__((noinline, unused)) spend(int milliseconds) {
    long long end = spent() + milliseconds * 1000000LL;
    while (spent() < end) {}
}
