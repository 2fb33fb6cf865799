/* Text for standard output that a signal's handler may write too: by `write` alone. */
#ifndef OUTPUT_H
#define OUTPUT_H
#include <stddef.h>
#include <stdint.h>

struct output {
    char text[1 << 16];
    size_t length;
};

void say(struct output *output, const char *words);
void say_number(struct output *output, uint64_t number);
void write_output(struct output *output); /* ends the process where nobody reads it */
#endif
