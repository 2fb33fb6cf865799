// After every signal that ends a program what was recorded is there, after those of real time too.
// status: -34
// says: the log ends \d+.\d ms after recording began, inside a region: the program was killed
// text: # remark: the program ended inside the region: work and span too low
#include <signal.h>

int main(void) {
#pragma omp parallel
#pragma omp single
    {
#pragma omp task
        raise(SIGRTMIN);
    }
    return 0;
}
