// With the modifier task, explicit tasks of the region take part in a reduction of parallel.
// openmp: 5.5.8 reduction clause (task reduction-modifier)
#include "expect.h"

int main(void) {
  for (int round = 0; round < 20; round++) {
    long sum = 5;
    int threads = 0;
#pragma omp parallel reduction(task, + : sum)
    {
#pragma omp single nowait
      threads = omp_get_num_threads();
      sum += 1;
      for (int i = 1; i <= 4; i++) {
#pragma omp task in_reduction(+ : sum)
        {
          sum += 10 * i;
#pragma omp task in_reduction(+ : sum)
          sum += 1000;
        }
      }
    }
    expect("the sum", sum, 5 + 4101L * threads);
  }
  return wrong;
}
