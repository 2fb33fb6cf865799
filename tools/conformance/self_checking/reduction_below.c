// Tasks at any depth below a group's task take part in its reduction.
// openmp: 5.5.10 in_reduction clause
#include "expect.h"

int main(void) {
  for (int round = 0; round < 20; round++) {
    long sum = 0;
#pragma omp parallel
#pragma omp single
#pragma omp taskgroup task_reduction(+ : sum)
    for (int i = 0; i < 4; i++) {
#pragma omp task in_reduction(+ : sum)
      {
        sum += 1;
#pragma omp task in_reduction(+ : sum)
        {
          sum += 10;
#pragma omp task in_reduction(+ : sum)
          sum += 100;
        }
        sum += 1;
      }
    }
    expect("the sum", sum, 448);
  }
  return wrong;
}
