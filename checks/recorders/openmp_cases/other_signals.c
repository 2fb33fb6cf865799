// A signal that is no fault of the program, such as that of a closed pipe: what was recorded until then is there.
// status: -13
// says: the log ends \d+.\d ms after recording began, inside a region: the program was killed
// text: # remark: the program ended inside the region: work and span too low
#include <signal.h>

int main(void) {
#pragma omp parallel
#pragma omp single
    {
#pragma omp task
        raise(SIGPIPE);
    }
    return 0;
}
