/* What makes a run's schedule another one than the runtime's own: some segments take longer, or the runtime learns
 * later that they have ended. */
#ifndef DELAYS_H
#define DELAYS_H
#include "conformance.h"
#include <stdint.h>

enum schedule {
    PLAIN,     /* no delays */
    SCATTERED, /* each segment by a yield, a spin or a short sleep, at random */
    LATE,      /* one or two segments that another task waits for, by much */
    CREATION,  /* every fourth segment that creates a task */
    SCHEDULES
};
enum moment { DURING, AFTER }; /* in the segment's code; after its finish was logged */

struct delays {
    const struct conformance_program *program;
    uint64_t seed; /* 0: all runs are plain */
    unsigned run, waited_for;
};

struct delays delays_of(const struct conformance_program *of, uint64_t seed);
enum schedule schedule_of(const struct delays *delays);
const char *schedule_name(enum schedule schedule);
void delay_segment(const struct delays *delays, unsigned segment, enum moment moment);
void delay(long nanoseconds);
#endif
