// How many primes lie near larger and larger numbers: a row costs more the later it is, and each thread gets a quarter
// of the rows. The repair hands out small chunks.
#include <stdio.h>

enum { rows = 4000 };
static long steps[rows];

// Among the twelve numbers from this one on, by trial division.
static long primes_near(long number) {
    long found = 0;
    for (long one = number; one < number + 12; one++) {
        long divisor = 2;
        while (divisor * divisor <= one && one % divisor) divisor++;
        found += divisor * divisor > one;
    }
    return found;
}

int main(void) {
#ifdef FIXED
#pragma omp parallel for schedule(dynamic, 16)
#else
#pragma omp parallel for schedule(static) // <- cause
#endif
    for (long row = 0; row < rows; row++) // <- cause
        steps[row] = primes_near(1000 + row * row * 300);
    long sum = 0;
    for (int row = 0; row < rows; row++) sum += steps[row];
    printf("%ld\n", sum);
}
