/* Bitonic sort by halves, as tasks; rewritten, long passes of exchanges are made in tasks, the longest in eight. */
#include <stdio.h>
#include <stdlib.h>

enum { count = 1 << 19, few = 1 << 12 };
#ifdef REWRITTEN
enum { longest = count / 16 };
#else
enum { longest = count };
#endif

static void exchange(int *low, int *high, long many, int down) {
    for (long i = 0; i < many; i++) {
        int a = low[i], b = high[i], least = a < b ? a : b, most = a < b ? b : a;
        low[i] = down ? most : least;
        high[i] = down ? least : most;
    }
}

static void exchange_all(int *numbers, long half, int down) {
    if (half <= longest) return exchange(numbers, numbers + half, half, down);
#pragma omp taskgroup
    for (long from = 0; from < half; from += longest) {
#pragma omp task
        exchange(numbers + from, numbers + half + from, longest, down);
    }
}

static void merge_alone(int *numbers, long many, int down) {
    for (long half = many / 2; half; half /= 2)
        for (long from = 0; from < many; from += 2 * half) exchange(numbers + from, numbers + from + half, half, down);
}

static void merge(int *numbers, long many, int down) {
    if (many <= few) return merge_alone(numbers, many, down);
    long half = many / 2;
    exchange_all(numbers, half, down);
#pragma omp task
    merge(numbers, half, down);
#pragma omp task
    merge(numbers + half, half, down);
#pragma omp taskwait
}

static void sort(int *numbers, long many, int down) {
    if (many <= few) {
        for (long part = 2; part <= many; part *= 2)
            for (long from = 0; from < many; from += part)
                merge_alone(numbers + from, part, part == many ? down : from / part % 2);
        return;
    }
    long half = many / 2;
#pragma omp task
    sort(numbers, half, 0);
#pragma omp task
    sort(numbers + half, half, 1);
#pragma omp taskwait
    merge(numbers, many, down);
}

int main(void) {
    int *numbers = malloc(count * sizeof *numbers);
    unsigned long x = 3, wrong = 0;
    for (long i = 0; i < count; i++) {
        x = x * 6364136223846793005UL + 1442695040888963407UL;
        numbers[i] = x >> 33;
    }
#pragma omp parallel
#pragma omp single
    sort(numbers, count, 0);
    for (long i = 1; i < count; i++) wrong += numbers[i - 1] > numbers[i];
    printf("%d %lu\n", numbers[count / 2], wrong);
    free(numbers);
    return 0;
}
