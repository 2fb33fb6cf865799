// Each thread takes several chunks of several turns: the run of the whole program is one that its text allows.
// needs: LLVM 16
// env: SPANPROF_WHOLE=1
// env: SPANPROF_TIMES=1
// file: out.timed
// text: turns of the loop at chunks_of_several_turns.c:1[0-9]
#include "spend.h"

int main(void) {
#pragma omp parallel
    {
#pragma omp for schedule(guided)
        for (int i = 0; i < 64; i++) spend(1);
#pragma omp for schedule(dynamic, 3)
        for (int i = 0; i < 64; i++) spend(1);
    }
    return 0;
}
