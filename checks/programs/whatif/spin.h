/* Code of a known length by its thread's own processor clock: other programs on the machine do not change its cost. With
 * TURNS it is so many turns for each microsecond, for programs whose time is measured and not the processor's. */
#ifdef TURNS
static void spin(long microseconds) {
    double x = 0;
    for (long i = 0; i < TURNS * microseconds; i++) x = x * 0.999 + 1;
    __asm__ volatile("" : : "x"(x));
}
#else
#include <time.h>

static long own_nanoseconds(void) {
    struct timespec now;
    clock_gettime(CLOCK_THREAD_CPUTIME_ID, &now);
    return now.tv_sec * 1000000000L + now.tv_nsec;
}

static void spin(long microseconds) {
    long end = own_nanoseconds() + 1000 * microseconds;
    while (own_nanoseconds() < end) {}
}
#endif
