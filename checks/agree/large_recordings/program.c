// A program of many tasks: tree LEVELS, each task with two below it; grid SIDE, each block after its upper and its left
// neighbour by depend; row COUNT, tasks that need nothing of each other.
#include <stdio.h>
#include <stdlib.h>
#include <string.h>

static volatile long turn;

static void spend(long turns) {
    for (long i = 0; i < turns; i++) turn = i;
}

static void tree(long levels) {
    spend(100);
    if (levels == 1) return;
    for (int i = 0; i < 2; i++) {
#pragma omp task
        tree(levels - 1);
    }
#pragma omp taskwait
}

static void grid(long side) {
    char *block = calloc(side + 1, side + 1);
    for (long i = 1; i <= side; i++)
        for (long j = 1; j <= side; j++) {
            char *here = block + i * (side + 1) + j;
            (void)here;
#pragma omp task depend(in: here[-1], here[-side - 1]) depend(inout: here[0])
            spend(100);
        }
}

static void row(long count) {
    for (long i = 0; i < count; i++) {
#pragma omp task
        spend(300);
    }
}

int main(int count, char **words) {
    if (count < 3) return fprintf(stderr, "program tree|grid|row NUMBER\n"), 2;
    long number = atol(words[2]);
#pragma omp parallel
#pragma omp single
    if (!strcmp(words[1], "tree")) tree(number);
    else if (!strcmp(words[1], "grid")) grid(number);
    else row(number);
    return 0;
}
