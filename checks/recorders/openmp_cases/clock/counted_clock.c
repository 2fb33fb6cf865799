// A processor's clock for LD_PRELOAD that counts how often its thread has read it, 100 ns each time, so that what a
// program spends by spend.h is the same on every machine, however busy, and nothing but code has a cost. Other clocks
// are the kernel's.
#define _GNU_SOURCE
#include <sys/syscall.h>
#include <time.h>
#include <unistd.h>

static const long step = 100, second = 1000000000; // nanoseconds
static __thread long counted;

int clock_gettime(clockid_t clock, struct timespec *time) {
    if (clock != CLOCK_THREAD_CPUTIME_ID) return (int)syscall(SYS_clock_gettime, clock, time);
    counted += step;
    time->tv_sec = counted / second;
    time->tv_nsec = counted % second;
    return 0;
}
