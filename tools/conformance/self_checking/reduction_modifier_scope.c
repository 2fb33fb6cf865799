// With the modifier task, tasks that a scope creates take part in its reduction.
// openmp: 5.5.8 reduction clause (task reduction-modifier), 11.2 scope construct
#include "expect.h"

int main(void) {
  for (int round = 0; round < 20; round++) {
    static long sum, threads;
    sum = 5;
#pragma omp parallel
    {
#pragma omp single
      threads = omp_get_num_threads();
#pragma omp scope reduction(task, + : sum)
      {
        sum += 1;
#pragma omp task in_reduction(+ : sum)
        sum += 10;
      }
      expect("the sum behind the scope", sum, 5 + 11 * threads);
#pragma omp barrier
    }
  }
  return wrong;
}
