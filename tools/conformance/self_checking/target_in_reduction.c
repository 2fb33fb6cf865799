// A target region that is a task takes part in the reduction of a group, here on the host.
// openmp: 13.8 target construct, 5.5.10 in_reduction clause
// env: OMP_TARGET_OFFLOAD=DISABLED
#include "expect.h"

int main(void) {
  for (int round = 0; round < 10; round++) {
    long sum = 0;
#pragma omp parallel
#pragma omp single
#pragma omp taskgroup task_reduction(+ : sum)
    for (int i = 1; i <= 6; i++) {
#pragma omp target in_reduction(+ : sum) nowait
      sum += i;
#pragma omp task in_reduction(+ : sum)
      sum += 100 * i;
    }
    expect("the sum", sum, 2121);
  }
  return wrong;
}
