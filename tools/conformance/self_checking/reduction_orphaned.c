// A function that knows nothing of the group around it creates tasks that take part in the reduction of a shared array.
// openmp: 5.5.10 in_reduction clause
#include "expect.h"

static long sums[4];

static void add(int depth) {
#pragma omp task in_reduction(+ : sums)
  {
    sums[depth]++;
    if (depth) add(depth - 1), add(depth - 1);
  }
}

int main(void) {
  for (int round = 1; round <= 20; round++) {
#pragma omp parallel
#pragma omp single
#pragma omp taskgroup task_reduction(+ : sums)
    add(3);
    for (int k = 0; k < 4; k++) expect("tasks of a depth", sums[k], (8L >> k) * round);
  }
  return wrong;
}
