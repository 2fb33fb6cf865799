// Undeferred tasks and those below final ones take part in a reduction, and so do the tasks below them.
// openmp: 5.5.10 in_reduction clause, 12.3 final clause, 3.4 if clause
#include "expect.h"

int main(void) {
  for (int round = 0; round < 20; round++) {
    long sum = 0, largest = -1;
#pragma omp parallel
#pragma omp single
#pragma omp taskgroup task_reduction(+ : sum) task_reduction(max : largest)
    for (int i = 0; i < 8; i++) {
#pragma omp task in_reduction(+ : sum) in_reduction(max : largest) if (i % 2) final(i % 3 == 0)
      {
        sum += i;
#pragma omp task in_reduction(+ : sum) in_reduction(max : largest)
        {
          sum += 100;
          if (largest < i) largest = i;
        }
      }
    }
    expect("the sum", sum, 828);
    expect("the maximum", largest, 7);
  }
  return wrong;
}
