// Bases of a genome: each task counts into four numbers of one array, and those of several tasks share a line of the
// cache, which goes from processor to processor. The repair counts into variables of its own.
#include <stdio.h>
#include <stdlib.h>

enum { parts = 16, length = 5000000 };
static long counts[parts][4];

static void count(const unsigned char *bases, long *found) {
    for (long i = 0; i < length; i++) found[bases[i] & 3]++; // <- cause
}

int main(void) {
    unsigned char *bases = malloc((size_t)parts * length);
    unsigned state = 3;
    for (long i = 0; i < 65536; i++) {
        state = state * 1664525 + 1013904223;
        bases[i] = state >> 24;
    }
    for (long i = 65536; i < (long)parts * length; i++) bases[i] = bases[i - 65536];
#pragma omp parallel
#pragma omp single
    for (int part = 0; part < parts; part++) {
#pragma omp task // <- cause
        {
#ifdef FIXED
            long own[4] = {0, 0, 0, 0};
            count(bases + (long)part * length, own);
            for (int base = 0; base < 4; base++) counts[part][base] = own[base];
#else
            count(bases + (long)part * length, counts[part]); // <- cause
#endif
        }
    }
    long sum = 0;
    for (int part = 0; part < parts; part++)
        for (int base = 0; base < 4; base++) sum = sum * 7 + counts[part][base];
    printf("%ld\n", sum);
    free(bases);
}
