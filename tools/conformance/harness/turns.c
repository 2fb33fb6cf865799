#include "turns.h"
#include <stdlib.h>
#include <string.h>

bool open_turns(struct turns *turns, unsigned segments) {
    turns->first = calloc(segments + 1, sizeof *turns->first);
    turns->segments = segments;
    return turns->first != NULL;
}

void clear_turns(struct turns *turns) {
    memset(turns->first, 0, turns->segments * sizeof *turns->first);
}

void turn_begins(struct turns *turns, unsigned *own, unsigned segment) {
    if (!*own) *own = segment + 1;
    if (segment < turns->segments) turns->first[segment] = *own;
}

void say_turns(const struct turns *turns, struct output *output) {
    for (unsigned segment = 0; segment < turns->segments; segment++) {
        if (!turns->first[segment]) continue;
        say(output, "turn ");
        say_number(output, segment);
        say(output, " ");
        say_number(output, turns->first[segment] - 1);
        say(output, "\n");
    }
}
