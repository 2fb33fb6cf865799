// A child writes files of its own, and the parent's stay the parent's.
// file: out.tasks out.child[0-9]*.tasks
// text: "number": 1, "of": 1\}
// expect: work >= 1800000
#include <sys/wait.h>
#include <unistd.h>

#include "spend.h"

static void region(int tasks) {
#pragma omp parallel
#pragma omp single
    for (int i = 0; i < tasks; i++) {
#pragma omp task
        spend(1);
    }
}

int main(void) {
    pid_t child = fork();
    region(child ? 2 : 1);
    if (child) waitpid(child, 0, 0);
    return 0;
}
