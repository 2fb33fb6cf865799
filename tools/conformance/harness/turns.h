/* Which turns of taskloops went to one task in a run: of each turn, the first segment of the first turn of its task. */
#ifndef TURNS_H
#define TURNS_H
#include "output.h"
#include <stdbool.h>

struct turns {
    unsigned *first; /* of each segment: one more than that, or 0 */
    unsigned segments;
};

bool open_turns(struct turns *turns, unsigned segments); /* false: out of memory */
void clear_turns(struct turns *turns);
/* A turn begins with a segment. `own` is its task's own number, 0 before the task's first turn. */
void turn_begins(struct turns *turns, unsigned *own, unsigned segment);
void say_turns(const struct turns *turns, struct output *output); /* a line `turn SEGMENT FIRST` for each turn */
#endif
