// Primes by a sieve: each task sieves a segment in an array of its own, which fits into the cache.
#include <stdio.h>
#include <string.h>

enum { segment = 65536, segments = 4000, small = 16400 };
static int primes[small], known, counted[segments];

static void small_primes(void) {
    static char is_composite[small];
    for (int number = 2; number < small; number++) {
        if (is_composite[number]) continue;
        primes[known++] = number;
        for (int multiple = number * number; multiple < small; multiple += number) is_composite[multiple] = 1;
    }
}

static int sieve(long first) {
    char is_composite[segment];
    memset(is_composite, 0, sizeof is_composite);
    for (int i = 0; i < known; i++) {
        long prime = primes[i], multiple = (first + prime - 1) / prime * prime;
        if (multiple < prime * prime) multiple = prime * prime;
        for (; multiple < first + segment; multiple += prime) is_composite[multiple - first] = 1;
    }
    int count = 0;
    for (int i = 0; i < segment; i++) count += !is_composite[i] && first + i >= 2;
    return count;
}

int main(void) {
    small_primes();
#pragma omp parallel
#pragma omp single
    for (int i = 0; i < segments; i++) {
#pragma omp task
        counted[i] = sieve((long)i * segment);
    }
    long sum = 0;
    for (int i = 0; i < segments; i++) sum += counted[i];
    printf("%ld\n", sum);
}
