/* Sees that runs end. A run hangs where no segment begins or ends for so many seconds in which threads run, or for a
 * third of them while all threads sleep, or where it goes on for ten times as long as that. It runs away where one begins again and again, or
 * where the process takes more than two gigabytes of memory. */
#ifndef WATCH_H
#define WATCH_H
#include "counts.h"
#include <stdatomic.h>
#include <stdbool.h>

struct watch {
    const struct counts *counts;
    unsigned seconds;           /* without a begin or an end until a run hangs */
    void (*hangs)(bool asleep); /* called by a thread of its own; `asleep`: no thread ran in all that time */
    void (*runs_away)(const char *how);
    atomic_uint run;            /* counts the runs, so that each has all of its time */
    atomic_bool at_work;        /* not while a log is written, which takes as long as its reader does */
};

bool start_watch(struct watch *watch); /* false: no thread for it */
void next_run(struct watch *watch);
void end_run(struct watch *watch);
#endif
