// For a group with reductions outside of regions gcc's runtime makes a team of this thread: its tasks are deferred.
// compiler: gcc
// runtime: gnu
// env: SPANPROF_WHOLE=1
// env: SPANPROF_TIMES=1
// text: task \{
// no text: if\(0\)
#include "spend.h"

int main(void) {
    int sum = 0;
#pragma omp taskgroup task_reduction(+ : sum)
    {
#pragma omp task in_reduction(+ : sum)
        {
            spend(1);
            sum++;
        }
        spend(1);
    }
    return sum != 1;
}
