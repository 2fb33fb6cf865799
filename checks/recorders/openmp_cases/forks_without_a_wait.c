// Children that nobody waits for, made between regions and in tasks: they exec, end, crash, or go on with OpenMP. The
// runtime tells the parent's thread of its child. All of the parent's tasks are in its text.
// On gcc's runtime a region of such a child never ends.
// runtime: llvm
// file: out.tasks out.2.tasks out.child[0-9]*.tasks
// text: "number": 1, "of": 6\}
// expect: tasks = 400
#include <signal.h>
#include <stdlib.h>
#include <sys/wait.h>
#include <unistd.h>

#include "spend.h"

enum What { Nothing, Exec, End, Crash, Region };

static void tasks(int count, enum What child_in_a_task);

static void begin_child(enum What what) {
    if (what == Nothing || fork()) return;
    signal(SIGABRT, SIG_DFL);
    if (what == Exec) execl("/bin/true", "true", (char *)0);
    if (what == Crash) abort();
    if (what == Region) tasks(2, Nothing);
    _exit(0);
}

static void tasks(int count, enum What child_in_a_task) {
#pragma omp parallel
#pragma omp single
    for (int i = 0; i < count; i++) {
#pragma omp task
        {
            spend(0);
            if (i == count / 2) begin_child(child_in_a_task);
        }
    }
}

int main(void) {
    for (int what = Exec; what <= Region; what++) {
        tasks(400, Nothing);
        begin_child((enum What)what);
    }
    tasks(400, Exec);
    tasks(400, Crash);
    while (wait(0) > 0) {}
    return 0;
}
