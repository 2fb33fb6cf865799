// Lengths of Collatz sequences, a task for each block of four numbers: making a task costs about as much as its code.
// The repair has two thousand numbers in a block.
#include <stdio.h>
#include <stdlib.h>

#ifdef FIXED
enum { block = 2000 };
#else
enum { block = 4 };
#endif
enum { numbers = 200000 };
static int length[numbers + 1];

static int collatz(long number) {
    int steps = 0;
    for (; number != 1; steps++) number = number % 2 ? 3 * number + 1 : number / 2;
    return steps;
}

int main(void) {
#pragma omp parallel
#pragma omp single
    for (int first = 1; first <= numbers; first += block) {
#pragma omp task // <- cause
        for (int i = first; i < first + block && i <= numbers; i++) length[i] = collatz(i);
    }
    long sum = 0;
    for (int i = 1; i <= numbers; i++) sum += length[i];
    printf("%ld\n", sum);
}
