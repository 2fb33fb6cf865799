#include "log.h"
#include <stdlib.h>
#include <string.h>

bool open_log(struct log *log, unsigned room) {
    log->events = calloc(room, sizeof *log->events);
    log->room = room;
    return log->events != NULL;
}

void clear_log(struct log *log) {
    memset((void *)log->events, 0, log->room * sizeof *log->events);
    atomic_store(&log->used, 0);
}

void log_event(struct log *log, enum event what, unsigned worker, unsigned segment) {
    unsigned place = atomic_fetch_add_explicit(&log->used, 1, memory_order_relaxed);
    uint64_t event = (uint64_t)what << 56 | (uint64_t)worker << 32 | segment;
    if (place < log->room) atomic_store_explicit(&log->events[place], event, memory_order_relaxed);
}

void say_log(struct log *log, struct output *output) {
    unsigned end = atomic_load(&log->used);
    for (unsigned i = 0; i < end && i < log->room; i++) {
        uint64_t event = atomic_load(&log->events[i]);
        if (!event) continue;
        say(output, event >> 56 == START ? "start " : "finish ");
        say_number(output, event >> 32 & 0xffffff);
        say(output, " ");
        say_number(output, event & 0xffffffff);
        say(output, "\n");
    }
    if (end > log->room) say(output, "overflow\n");
}
