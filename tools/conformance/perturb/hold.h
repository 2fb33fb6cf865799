/* Where a runtime may be delayed. */
#ifndef HOLD_H
#define HOLD_H
#include <stdint.h>

enum moment { BEFORE, AFTER };
enum access { ATOMIC, PLAIN };

/* Called before a function's first access: threads are delayed in the library that has the address `inside` of the
 * first one. */
void function_begins(uintptr_t inside);

/* Delays the thread where the seed, or the list of places, says so. `place` is the address behind a call. */
void hold(uintptr_t place, enum moment moment, enum access access);
#endif
