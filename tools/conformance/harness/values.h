/* The value of each segment, as spanprof's own kernel computes it: from its number and the values of its predecessors,
 * x = 5x + 1 so many times as its cost says, up to 4096. In plain memory, so that a forgotten fence shows. */
#ifndef VALUES_H
#define VALUES_H
#include "conformance.h"
#include <stdint.h>

uint64_t value_of(const struct conformance_program *of, const uint64_t *values, unsigned segment);
uint64_t digest_of(const struct conformance_program *of, const uint64_t *values);
#endif
