// One region around 60 steps, each with a loop of 4 ms on 4 threads: a thread's code of a step is less than a hundredth
// of the whole, and in the text all the same. The head tells what is divided among the threads.
// runtime: llvm
// clock: counted
// expect: work >= 240000000
// expect: covers >= 90
// expect: tasks = 60
// text: # divided: \{"what": "loops", "threads": 4, "times": 60, "at": "steps_of_loops.c:16"
// text: # divided: \{"what": "sections", "threads": 4, "times": 1, "at": "steps_of_loops.c:30"
// text: # divided: \{"what": "code", "threads": 4, "parts": \d+, "beside": 1[4-9]\d{7}\}
// no text: # remark: parts without tasks
#include "spend.h"

static void steps(void) {
    for (int step = 0; step < 60; step++) {
#pragma omp for schedule(static, 1)
        for (int i = 0; i < 4; i++) spend(1);
#pragma omp single
        {
#pragma omp task
            spend(0);
        }
    }
}

int main(void) {
#pragma omp parallel
    {
        steps();
#pragma omp sections
        {
#pragma omp section
            spend(1);
#pragma omp section
            spend(1);
        }
    }
    return 0;
}
