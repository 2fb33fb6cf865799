/* The events of one run, in the order in which they happened.
 *
 * Threads meet only at one counter, from which each event takes its place. The additions are relaxed: where the runtime
 * orders two events, they get their places in that order; where it does not, nothing here does. */
#ifndef LOG_H
#define LOG_H
#include "output.h"
#include <stdatomic.h>
#include <stdbool.h>
#include <stdint.h>

enum event { START = 1, FINISH = 2 };

struct log {
    _Atomic uint64_t *events; /* what, worker, segment */
    atomic_uint used;
    unsigned room;
};

bool open_log(struct log *log, unsigned room); /* false: out of memory */
void clear_log(struct log *log);
void log_event(struct log *log, enum event what, unsigned worker, unsigned segment);
void say_log(struct log *log, struct output *output); /* a line for each event, and `overflow` where there were more */
#endif
