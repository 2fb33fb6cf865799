// A helper that makes tasks, and four calls that lead to it: what a page says of them with --call-paths, and of the
// serial code before and after the region.
#include <stdio.h>
#include <stdlib.h>

enum { NUMBERS = 1 << 21, TURNS = 1000 };

static double sum;

static double busy(int thousands) {
    double x = 1;
    for (int i = 0; i < thousands * TURNS; i++) x = x * 0.999999 + 0.5;
    return x;
}

static void __attribute__((noinline)) blocks(int count, int cost) {
    for (int i = 0; i < count; i++) {
#pragma omp task firstprivate(cost)
        {
            double own = busy(cost);
#pragma omp atomic
            sum += own;
        }
    }
#pragma omp taskwait
}

static void __attribute__((noinline)) assemble(void) {
    blocks(12, 200);
    sum += 1;
}

static void __attribute__((noinline)) solve(void) {
    for (int step = 0; step < 3; step++) blocks(8, 700);
    sum += 1;
}

static void __attribute__((noinline)) smooth_and_restrict_to_the_coarser_grid(int level) {
    blocks(4, 150);
    if (level > 0) smooth_and_restrict_to_the_coarser_grid(level - 1);
    sum += 1;
}

int main(void) {
    int *numbers = malloc(NUMBERS * sizeof *numbers);
    for (int i = 0; i < NUMBERS; i++) numbers[i] = i ^ 77;
#pragma omp parallel
#pragma omp single
    {
        assemble();
        solve();
        smooth_and_restrict_to_the_coarser_grid(3);
    }
    double after = busy(60000);
    printf("%.3f %d\n", sum + after, numbers[NUMBERS / 2]);
    free(numbers);
    return 0;
}
