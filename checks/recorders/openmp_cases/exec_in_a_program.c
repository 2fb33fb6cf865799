// What was recorded before `exec` is there, and what the process goes over to has a log of its own.
// file: out.tasks out.child[0-9]*.tasks
// says: the log ends \d+.\d ms after recording began, outside of regions
// text: "number": 1, "of": 1\}
// expect: tasks = 2
#include <unistd.h>

#include "spend.h"

static void region(int tasks) {
#pragma omp parallel
#pragma omp single
    for (int i = 0; i < tasks; i++) {
#pragma omp task
        spend(1);
    }
}

int main(int count, char **words) {
    region(count > 1 ? 3 : 2);
    if (count == 1) execl("/proc/self/exe", words[0], "again", (char *)0);
    return 0;
}
