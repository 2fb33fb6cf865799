// Turns of a loop that wait for each other (`ordered`): the interface tells it, and the text says what it lacks.
// text: # remark: dependence between iterations of a loop \(ordered\), left out, 15 times at turns_in_order.c:\d+: work too high, span too low or too high
#include "spend.h"

int main(void) {
#pragma omp parallel
    {
#pragma omp single
#pragma omp task
        spend(1);
#pragma omp for ordered(1) schedule(static, 1)
        for (int i = 0; i < 16; i++) {
#pragma omp ordered depend(sink: i - 1)
            spend(1);
#pragma omp ordered depend(source)
        }
    }
    return 0;
}
