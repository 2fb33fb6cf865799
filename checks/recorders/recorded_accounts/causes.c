// Programs that are slow for a known cause. Their code sleeps, so that other programs do not change what is so; that of
// `machine` computes, on one processor for all threads. The first word is the cause.
#define _GNU_SOURCE
#include <sched.h>
#include <string.h>
#include <time.h>

static char place[8];  // only addresses, for depend
static volatile unsigned long turned;

static void code(long milliseconds) {
    struct timespec rest = {0, milliseconds * 1000000};
    while (nanosleep(&rest, &rest)) {}
}

static void turns(long count) {
    for (long i = 0; i < count; i++) turned = turned * 5 + 1;
}

static void small(void) { // thousands of tasks with next to no code
    for (int i = 0; i < 4000; i++) {
#pragma omp task
        turns(50);
    }
}

static void serial(void) { // each task after the one before it
    for (int i = 0; i < 12; i++) {
#pragma omp task depend(inout: place[0])
        code(8);
    }
}

static void wait(void) { // in each round three threads wait for the fourth, and need not
    for (int round = 0; round < 4; round++) {
        for (int column = 0; column < 4; column++) {
#pragma omp task depend(inout: place[column])
            code(column == round ? 60 : 4);
        }
#pragma omp taskwait
    }
}

static void lock(void) { // most of the time inside one lock
    for (int i = 0; i < 16; i++) {
#pragma omp task
        {
            code(2);
#pragma omp critical
            code(8);
        }
    }
}

static void machine(void) { // four threads on one processor
    for (int i = 0; i < 16; i++) {
#pragma omp task
        turns(20000000);
    }
}

static void dear(void) { // one kind of task has nearly all of the work
    for (int i = 0; i < 16; i++) {
#pragma omp task
        code(4);
#pragma omp task
        code(40);
    }
}

static void balanced(void) {
    for (int i = 0; i < 16; i++) {
#pragma omp task
        code(40);
    }
}

static void outside(void) { // most of the time has gone by before (main)
    for (int i = 0; i < 8; i++) {
#pragma omp task
        code(10);
    }
}

static void (*program_of(const char *word))(void) {
    static const struct { const char *word; void (*program)(void); } all[] = {
        {"small", small}, {"serial", serial}, {"wait", wait}, {"lock", lock},
        {"machine", machine}, {"dear", dear}, {"balanced", balanced},
        {"outside", outside}};
    for (unsigned i = 0; i < sizeof all / sizeof *all; i++)
        if (!strcmp(all[i].word, word)) return all[i].program;
    return 0;
}

int main(int count, char **words) {
    void (*program)(void) = count > 1 ? program_of(words[1]) : 0;
    if (!program) return 1;
    if (program == machine) {
        cpu_set_t one;
        CPU_ZERO(&one);
        CPU_SET(sched_getcpu(), &one);
        sched_setaffinity(0, sizeof one, &one);
    }
    if (program == outside) code(120);
#pragma omp parallel
    turns(1); // the threads are there
#pragma omp parallel
#pragma omp single
    program();
    return 0;
}
