// A fatal signal before there is a task: a word says where the log ends, and there is no text.
// status: -6
// says: the log ends \d+.\d ms after recording began, inside a region: the program was killed
// no file: out.tasks out.timed out.2.tasks
#include <stdlib.h>

int main(void) {
#pragma omp parallel
#pragma omp single
    abort();
    return 0;
}
