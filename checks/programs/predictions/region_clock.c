/* Stands between a program and its OpenMP runtime, LLVM's or gcc's, and tells how long its longest region took, in
 * nanoseconds, from before its threads are made until they have joined: LD_PRELOAD=region_clock.so REGION_TIME=FILE */
#define _GNU_SOURCE
#include <dlfcn.h>
#include <stdarg.h>
#include <stdio.h>
#include <stdlib.h>
#include <time.h>

enum { most = 16 };     /* words that a region's code is given */
static long longest;

static long now(void) {
    struct timespec t;
    clock_gettime(CLOCK_MONOTONIC, &t);
    return t.tv_sec * 1000000000L + t.tv_nsec;
}

/* The runtime has begun before the clock does. */
static void *runtimes(const char *name) {
    int (*ask)(void) = (int (*)(void))dlsym(RTLD_NEXT, "omp_get_max_threads");
    if (ask) ask();
    return dlsym(RTLD_NEXT, name);
}

static void over(long begun) {
    long taken = now() - begun;
    if (taken > longest) longest = taken;
}

void __kmpc_fork_call(void *place, int count, void *code, ...) {
    void (*call)(void *, int, void *, ...) = (void (*)(void *, int, void *, ...))runtimes("__kmpc_fork_call");
    void *w[most] = {0};
    va_list words;
    if (count > most) abort();
    va_start(words, code);
    for (int i = 0; i < count; i++) w[i] = va_arg(words, void *);
    va_end(words);
    long begun = now();
    call(place, count, code, w[0], w[1], w[2], w[3], w[4], w[5], w[6], w[7], w[8], w[9], w[10], w[11], w[12], w[13],
         w[14], w[15]);
    over(begun);
}

void GOMP_parallel(void (*code)(void *), void *data, unsigned threads, unsigned flags) {
    void (*call)(void (*)(void *), void *, unsigned, unsigned) =
        (void (*)(void (*)(void *), void *, unsigned, unsigned))runtimes("GOMP_parallel");
    long begun = now();
    call(code, data, threads, flags);
    over(begun);
}

__attribute__((destructor)) static void tell(void) {
    const char *path = getenv("REGION_TIME");
    FILE *file = path ? fopen(path, "w") : NULL;
    if (!file) return;
    fprintf(file, "%ld\n", longest);
    fclose(file);
}
