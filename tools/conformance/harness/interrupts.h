/* Holds threads up at random moments, wherever they are: inside the runtime too, where then a short time between two
 * steps is a long one. */
#ifndef INTERRUPTS_H
#define INTERRUPTS_H
#include <stdbool.h>
#include <stdint.h>

bool start_interrupts(uint64_t seed); /* false: no thread for it */
void may_be_interrupted(void);        /* of the thread that calls it, from now on */
void rest_from_interrupts(bool rest); /* true: nobody is held up when this returns, until it is called with false */
#endif
