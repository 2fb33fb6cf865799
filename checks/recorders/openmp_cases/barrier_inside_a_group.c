// A barrier waits for the tasks of the groups around it: each group is one before it and one after it.
// clock: counted
// expect: tasks = 4
// expect: span >= 5000000
// expect: span <= 9000000
// text: (?s)taskgroup \{  # \S+:\d+\n *work \d+\n *task \{  # \S+:\d+\n *work 2.*taskgroup \{  # \S+:\d+\n.* work 3
#include "spend.h"

int main(void) {
#pragma omp parallel num_threads(2)
#pragma omp taskgroup
    {
#pragma omp task
        spend(2);
#pragma omp barrier
#pragma omp task
        spend(3);
    }
    return 0;
}
