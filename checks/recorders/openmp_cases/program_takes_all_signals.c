// A program that takes each signal of real time gets its own alone: none is left of the samples' timers, on any thread.
// A set of all signals, which it waits for, has none of the recorder's.
// preload: recorder
// env: SPANPROF_WHOLE=1
// file: out.tasks
#include <signal.h>
#include <string.h>
#include <time.h>

#include "spend.h"

static volatile int count;

static void count_one(int number) { count += number > 0; }

static int wait_for_any(void) {
    struct timespec soon = {0, 20000000};
    sigset_t all, before;
    sigfillset(&all);
    sigprocmask(SIG_BLOCK, &all, &before);
    spend(30);
    int found = sigtimedwait(&all, 0, &soon);
    sigprocmask(SIG_SETMASK, &before, 0);
    return found;
}

int main(void) {
    spend(30);
    if (wait_for_any() >= 0) return 1;
#pragma omp parallel
    spend(30);
    for (int number = SIGRTMIN; number <= SIGRTMAX; number++) {
        struct sigaction own, before;
        memset(&own, 0, sizeof own);
        own.sa_handler = count_one;
        if (sigaction(number, &own, &before) || before.sa_handler != SIG_DFL) return 2;
    }
#pragma omp parallel
    spend(30);
    if (count) return 3;
    raise(SIGRTMAX - 1);
    return count == 1 ? 0 : 4;
}
