#include "counts.h"
#include <stdlib.h>

bool open_counts(struct counts *counts, unsigned segments) {
    counts->starts = calloc(segments + 1, 1);
    counts->finishes = calloc(segments + 1, 1);
    counts->segments = segments;
    return counts->starts && counts->finishes;
}

void clear_counts(struct counts *counts) {
    for (unsigned segment = 0; segment < counts->segments; segment++)
        counts->starts[segment] = counts->finishes[segment] = 0;
}

unsigned sum_of_counts(const struct counts *counts) {
    unsigned sum = 0;
    for (unsigned segment = 0; segment < counts->segments; segment++)
        sum += counts->starts[segment] + counts->finishes[segment];
    return sum;
}

bool begins_endlessly(const struct counts *counts) {
    enum { DOZENS = 50 };
    for (unsigned segment = 0; segment < counts->segments; segment++)
        if (counts->starts[segment] > DOZENS) return true;
    return false;
}

static void say_event(struct output *output, const char *what, unsigned segment) {
    say(output, what);
    say_number(output, segment);
    say(output, "\n");
}

void say_counts(const struct counts *counts, struct output *output) {
    for (unsigned segment = 0; segment < counts->segments; segment++) {
        for (unsigned i = 0; i < counts->starts[segment]; i++) say_event(output, "start 0 ", segment);
        for (unsigned i = 0; i < counts->finishes[segment]; i++) say_event(output, "finish 0 ", segment);
    }
}
