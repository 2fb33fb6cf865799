/* The product of two long polynomials by three products of half the length, each a task down to a length. */
#include <stdio.h>
#include <stdlib.h>
#include <string.h>

enum { terms = 1 << 15, alone = 1 << 9, shortest = 1 << 5 };
typedef unsigned Number;

static void by_hand(const Number *a, const Number *b, Number *out, int many) {
    memset(out, 0, 2 * many * sizeof *out);
    for (int i = 0; i < many; i++)
        for (int j = 0; j < many; j++) out[i + j] += a[i] * b[j];
}

static void sum_of_halves(const Number *a, Number *out, int half) {
    for (int i = 0; i < half; i++) out[i] = a[i] + a[i + half];
}

static void put_middle(Number *out, Number *middle, int half) {
    for (int i = 0; i < 2 * half; i++) middle[i] -= out[i] + out[i + 2 * half];
    for (int i = 0; i < 2 * half; i++) out[i + half] += middle[i];
}

static void product(const Number *a, const Number *b, Number *out, int many) {
    if (many <= shortest) return by_hand(a, b, out, many);
    int half = many / 2;
    Number *sums = malloc(4 * half * sizeof *sums), *middle = sums + 2 * half;
    sum_of_halves(a, sums, half);
    sum_of_halves(b, sums + half, half);
#pragma omp task if (many > alone)
    product(a, b, out, half);
#pragma omp task if (many > alone)
    product(a + half, b + half, out + 2 * half, half);
    product(sums, sums + half, middle, half);
#pragma omp taskwait
    put_middle(out, middle, half);
    free(sums);
}

int main(void) {
    Number *a = malloc(terms * sizeof *a), *b = malloc(terms * sizeof *b), *out = malloc(2 * terms * sizeof *out);
    for (int i = 0; i < terms; i++) a[i] = i * 17 % 1001, b[i] = i * 31 % 997;
#pragma omp parallel
#pragma omp single
    product(a, b, out, terms);
    printf("%u %u\n", out[terms / 2], out[terms + 5]);
    return 0;
}
