// Tasks take part in the reduction of a loop outside of any region, whose one thread runs all turns; with several
// threads the initial task has set a control variable of its own before.
// openmp: 5.5.8 reduction clause (task reduction-modifier)
#include "expect.h"

static long sum;

int main(void) {
  if (omp_get_max_threads() > 1) omp_set_num_threads(2);
  for (int round = 1; round <= 10; round++) {
#pragma omp for reduction(task, + : sum)
    for (int i = 1; i <= 10; i++) {
#pragma omp task in_reduction(+ : sum)
      sum += i;
    }
    expect("the sum outside of regions", sum, 55L * round);
  }
  return wrong;
}
