// With the modifier task, tasks that sections create take part in the sections' reduction.
// openmp: 5.5.8 reduction clause (task reduction-modifier)
#include "expect.h"

static long sum;

int main(void) {
  for (int round = 0; round < 20; round++) {
    sum = 5;
#pragma omp parallel
#pragma omp sections reduction(task, + : sum)
    {
#pragma omp section
      {
#pragma omp task in_reduction(+ : sum)
        sum += 10;
        sum += 1;
      }
#pragma omp section
      {
#pragma omp task in_reduction(+ : sum)
        sum += 100;
      }
    }
    expect("the sum", sum, 116);
  }
  return wrong;
}
