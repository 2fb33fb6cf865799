// A program to record: tasks in one region, in two with `two`, after half a second outside of it with `outside`, or for
// three seconds with `long`; its standard input goes to its output, a line to its standard error. Then it ends as the
// first word says: with a status, by `abort`, or only when it is killed (`wait`).
#include <stdio.h>
#include <stdlib.h>
#include <string.h>
#include <unistd.h>

static volatile double sum;

static void work(int rounds) {
    double own = 0;
    for (int i = 0; i < rounds; i++) own += 1.0 / (i + 1);
#pragma omp atomic
    sum += own;
}

static void heavy_region(void) {
#pragma omp parallel
#pragma omp single
    for (int i = 0; i < 8; i++) {
#pragma omp task firstprivate(i)
        {
#pragma omp task
            work(1000);
            work(300000);
        }
    }
}

static void light_region(void) {
#pragma omp parallel
#pragma omp single
    {
#pragma omp task
        work(1000);
    }
}

static void long_region(void) {
#pragma omp parallel
#pragma omp single
    {
#pragma omp task
        sleep(3);
    }
}

static void no_tasks(void) {
#pragma omp parallel
    work(1000);
}

int main(int count, char **words) {
    const char *first = count > 1 ? words[1] : "0";
    int c;
    if (!strcmp(first, "never")) return 0;
    while ((c = getchar()) != EOF) putchar(c);
    fprintf(stderr, "a line of the program\n");
    if (!strcmp(first, "none")) return no_tasks(), 0;
    if (!strcmp(first, "long")) return long_region(), 0;
    if (!strcmp(first, "two")) light_region();
    if (!strcmp(first, "outside")) usleep(500000);
    heavy_region();
    if (!strcmp(first, "abort")) abort();
    if (!strcmp(first, "wait")) {
        puts("waiting");
        fflush(stdout);
        for (;;) pause();
    }
    return atoi(first);
}
