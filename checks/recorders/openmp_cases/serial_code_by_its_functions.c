// What serial code ran is told by samples, from the program's beginning on, and what it slept in; a task's code too.
// preload: recorder
// env: SPANPROF_WHOLE=1
// env: SPANPROF_TIMES=1
// in out.calls: ^0 ran \d+ main;convert;plasma(;|$)
// in out.calls: ^0 slept \d{5} main;load;usleep@
// in out.calls: ^[1-9]\d* ran \d+ (main;)?in_a_task(;|$)
// in out.calls: ^[1-9]\d* ran \d+ main;last(;|$)
#include <unistd.h>

#include "spend.h"

static volatile int count;

static void __attribute__((noinline)) plasma(void) {
    spend(100);
    count++;
}

static void __attribute__((noinline)) convert(void) {
    plasma();
    count++;
}

static void __attribute__((noinline)) load(void) {
    usleep(20000);
    count++;
}

static void __attribute__((noinline)) in_a_task(void) {
    spend(100);
    count++;
}

static void __attribute__((noinline)) last(void) {
    spend(100);
    count++;
}

int main(void) {
    convert();
    load();
#pragma omp parallel
#pragma omp single
    {
#pragma omp task
        in_a_task();
    }
    last();
    return 0;
}
