// A child that met no construct has nothing to write, so its end by a signal is no news; the parent's files are whole.
// says: ^spanprof recorder: recording to \S+\n(\S+: [a-z].*\n)*\S+out.tasks and \S+out.timed: \d+ tasks, \d+ segments
// file: out.tasks out.timed
// no file: out.child[0-9]*.tasks
#include <signal.h>
#include <sys/wait.h>
#include <unistd.h>

#include "spend.h"

int main(void) {
#pragma omp parallel
#pragma omp single
    for (int i = 0; i < 2; i++) {
#pragma omp task
        spend(1);
    }
    pid_t child = fork();
    if (!child) raise(SIGTERM);
    waitpid(child, 0, 0);
    return 0;
}
