#include "stacks.h"
#include <stdio.h>
#include <string.h>
#include <sys/prctl.h>
#include <unistd.h>

void say_stacks(struct output *output) {
    char words[256], line[512];
    prctl(PR_SET_PTRACER, PR_SET_PTRACER_ANY, 0, 0, 0);
    snprintf(words, sizeof words, "gdb -q -nx -batch -p %d -ex 'thread apply all backtrace -frame-arguments none 24' "
             "2> /dev/null", (int)getpid());
    FILE *told = popen(words, "r");
    while (told && fgets(line, sizeof line, told)) {
        line[strcspn(line, "\n")] = 0;
        if (strncmp(line, "Thread ", 7) && line[0] != '#') continue;
        say(output, "stack ");
        say(output, line);
        say(output, "\n");
    }
    if (told) pclose(told);
}
