#include "output.h"
#include <string.h>
#include <unistd.h>

void write_output(struct output *output) {
    for (size_t done = 0; done < output->length;) {
        ssize_t count = write(STDOUT_FILENO, output->text + done, output->length - done);
        if (count <= 0) _exit(4);
        done += (size_t)count;
    }
    output->length = 0;
}

void say(struct output *output, const char *words) {
    size_t length = strlen(words);
    if (output->length + length > sizeof output->text) write_output(output);
    memcpy(output->text + output->length, words, length);
    output->length += length;
}

void say_number(struct output *output, uint64_t number) {
    char digits[24], *at = digits + sizeof digits;
    *--at = 0;
    do *--at = (char)('0' + number % 10);
    while (number /= 10);
    say(output, at);
}
