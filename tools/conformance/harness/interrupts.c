#define _GNU_SOURCE
#include "interrupts.h"
#include <pthread.h>
#include <sched.h>
#include <signal.h>
#include <stdatomic.h>
#include <sys/prctl.h>
#include <sys/syscall.h>
#include <time.h>
#include <unistd.h>

enum { MOST_THREADS = 256, MICROSECOND = 1000, BETWEEN = 20 * MICROSECOND, LONGEST = 200 };

/* One for the process, since a signal's handler is handed nothing. */
static struct {
    atomic_int threads[MOST_THREADS];
    atomic_uint count;
    atomic_ulong chance;
    atomic_bool rests;
    bool on;
} interrupts;

static uint64_t next_chance(void) {
    uint64_t x = atomic_fetch_add(&interrupts.chance, 0x9e3779b97f4a7c15u);
    x = (x ^ x >> 30) * 0xbf58476d1ce4e5b9u;
    return x ^ x >> 31;
}

static void pause_for(long nanoseconds) {
    nanosleep(&(struct timespec){0, nanoseconds}, NULL);
}

static void hold_up(int number) {
    (void)number;
    uint64_t chance = next_chance();
    if (chance & 3) pause_for((long)(chance >> 8) % LONGEST * MICROSECOND);
    else sched_yield();
}

/* A signal for a random thread, again and again. One that has ended gets none. */
static void *interrupting(void *handed) {
    prctl(PR_SET_TIMERSLACK, 1);
    for (;;) {
        pause_for(BETWEEN);
        unsigned count = atomic_load(&interrupts.count);
        if (count == 0 || atomic_load(&interrupts.rests)) continue;
        if (count > MOST_THREADS) count = MOST_THREADS;
        int thread = atomic_load(&interrupts.threads[next_chance() % count]);
        if (thread) syscall(SYS_tgkill, getpid(), thread, SIGUSR1);
    }
    return handed;
}

void may_be_interrupted(void) {
    static __thread bool known;
    if (known || !interrupts.on) return;
    known = true;
    unsigned place = atomic_fetch_add(&interrupts.count, 1);
    if (place < MOST_THREADS) atomic_store(&interrupts.threads[place], gettid());
}

void rest_from_interrupts(bool rest) {
    if (interrupts.on && atomic_exchange(&interrupts.rests, rest) != rest && rest) pause_for(5 * LONGEST * MICROSECOND);
}

bool start_interrupts(uint64_t seed) {
    struct sigaction action = {.sa_handler = hold_up, .sa_flags = SA_RESTART};
    pthread_t thread;
    atomic_store(&interrupts.chance, seed);
    interrupts.on = true;
    sigaction(SIGUSR1, &action, NULL);
    return !pthread_create(&thread, NULL, interrupting, NULL) && !pthread_detach(thread);
}
