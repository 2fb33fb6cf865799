// tasks COUNT LOOPS: one thread makes COUNT tasks of LOOPS turns each. Prints how long the region took and how much
// processor time, in nanoseconds, and by how much the memory of the process grew in it, in bytes. tasks 0: how many turns
// a microsecond has.
#include <stdio.h>
#include <stdlib.h>
#include <sys/resource.h>
#include <time.h>

static volatile long turn;

static long long nanoseconds(clockid_t clock) {
    struct timespec t;
    clock_gettime(clock, &t);
    return t.tv_sec * 1000000000LL + t.tv_nsec;
}

static long long most_memory(void) {
    struct rusage usage;
    getrusage(RUSAGE_SELF, &usage);
    return usage.ru_maxrss * 1024LL;
}

static void __attribute__((noinline)) work(long loops) {
    for (long i = 0; i < loops; i++) turn = i;
}

static long turns_in_a_microsecond(void) {
    const long loops = 20000000;
    long long began = nanoseconds(CLOCK_THREAD_CPUTIME_ID);
    work(loops);
    return loops * 1000 / (nanoseconds(CLOCK_THREAD_CPUTIME_ID) - began);
}

static void make_tasks(long count, long loops) {
#pragma omp parallel
#pragma omp single
    for (long i = 0; i < count; i++) {
#pragma omp task
        work(loops);
    }
}

int main(int argc, char **argv) {
    long count = argc > 1 ? atol(argv[1]) : 0, loops = argc > 2 ? atol(argv[2]) : 0;
    if (!count) return printf("%ld\n", turns_in_a_microsecond()) < 0;
    make_tasks(4, 0);  // starts the threads
    long long memory = most_memory(), began = nanoseconds(CLOCK_MONOTONIC), spent = nanoseconds(CLOCK_PROCESS_CPUTIME_ID);
    make_tasks(count, loops);
    long long took = nanoseconds(CLOCK_MONOTONIC) - began;
    printf("%lld %lld %lld\n", took, nanoseconds(CLOCK_PROCESS_CPUTIME_ID) - spent, most_memory() - memory);
    return 0;
}
