#include "delays.h"
#include <sched.h>
#include <time.h>

enum { MICROSECOND = 1000, LONGEST_SPIN = 50 * MICROSECOND };

struct delays delays_of(const struct conformance_program *of, uint64_t seed) {
    struct delays delays = {of, seed, 0, 0};
    for (unsigned segment = 0; segment < of->segments; segment++)
        delays.waited_for += (of->roles[segment] & WAITED_FOR) != 0;
    return delays;
}

enum schedule schedule_of(const struct delays *delays) {
    return delays->seed ? (enum schedule)(delays->run % SCHEDULES) : PLAIN;
}

const char *schedule_name(enum schedule schedule) {
    static const char *const names[] = {"plain", "scattered", "late", "creation"};
    return names[schedule];
}

static long now(void) {
    struct timespec t;
    clock_gettime(CLOCK_MONOTONIC, &t);
    return t.tv_sec * 1000000000L + t.tv_nsec;
}

/* Short ones spin; long ones sleep, so that the other threads have the processor. */
void delay(long nanoseconds) {
    if (nanoseconds <= 0) return;
    if (nanoseconds > LONGEST_SPIN) {
        struct timespec t = {nanoseconds / 1000000000L, nanoseconds % 1000000000L};
        nanosleep(&t, NULL);
        return;
    }
    for (long end = now() + nanoseconds; now() < end;) {}
}

/* A random number of a seed (splitmix64). */
static uint64_t mixed(uint64_t x) {
    x += 0x9e3779b97f4a7c15u;
    x = (x ^ x >> 30) * 0xbf58476d1ce4e5b9u;
    x = (x ^ x >> 27) * 0x94d049bb133111ebu;
    return x ^ x >> 31;
}

/* One of: nothing (as often as all others), a yield, a short or a longer spin, now and then a sleep. */
static void scatter(uint64_t chance) {
    long size = (long)(chance >> 8 & 1023);
    switch (chance & 7) {
    case 0: sched_yield(); break;
    case 1: delay(size * 2); break;
    case 2: delay(size * 20); break;
    case 3:
        if (!(chance >> 20 & 3)) delay(LONGEST_SPIN + size * 100);
        break;
    default: break;
    }
}

void delay_segment(const struct delays *delays, unsigned segment, enum moment moment) {
    uint64_t chance = mixed(mixed(delays->seed + delays->run) + segment);
    unsigned role = delays->program->roles[segment];
    enum moment chosen = chance >> 40 & 1 ? AFTER : DURING;
    long size = (long)(chance >> 8 & 1023);
    switch (schedule_of(delays)) {
    case SCATTERED: scatter(mixed(chance + moment)); break;
    case LATE:
        if (role & WAITED_FOR && moment == chosen && (chance >> 41) % delays->waited_for < 2)
            delay((200 + size) * MICROSECOND);
        break;
    case CREATION:
        if (role & CREATES && moment == chosen && !(chance >> 41 & 3)) delay((20 + size / 4) * MICROSECOND);
        break;
    default: break;
    }
}
