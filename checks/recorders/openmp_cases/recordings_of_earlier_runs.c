// A recording of an earlier run stays, whatever it is, and this one takes the next name.
// old: out.spanprof out-2.spanprof
// says: spanprof recorder: recording to \S+/out-3.spanprof/log
// file: out.spanprof out-2.spanprof out-3.tasks
// no file: out.tasks
#include "spend.h"

int main(void) {
#pragma omp parallel
#pragma omp single
    {
#pragma omp task
        spend(1);
    }
    return 0;
}
