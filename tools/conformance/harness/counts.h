/* How often each segment began and ended in a run, in plain memory:
 * nothing here orders anything. */
#ifndef COUNTS_H
#define COUNTS_H
#include "output.h"
#include <stdbool.h>

struct counts {
    volatile unsigned char *starts, *finishes; /* of each segment */
    unsigned segments;
};

bool open_counts(struct counts *counts, unsigned segments); /* false: out of memory */
void clear_counts(struct counts *counts);
unsigned sum_of_counts(const struct counts *counts);
bool begins_endlessly(const struct counts *counts); /* some segment began dozens of times */
/* A line `start 0 SEGMENT` for each time that it began, `finish 0 SEGMENT` for each time that it ended; in the order of
 * the segments. */
void say_counts(const struct counts *counts, struct output *output);
#endif
