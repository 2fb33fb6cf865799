// Inside of a group that reduces another item, tasks may take part in the reduction of the outer group.
// openmp: 5.5.9 task_reduction clause, 5.5.10 in_reduction clause
#include "expect.h"

int main(void) {
  for (int round = 0; round < 20; round++) {
    long outer = 0, inner = 0;
#pragma omp parallel
#pragma omp single
#pragma omp taskgroup task_reduction(+ : outer)
    {
#pragma omp taskgroup task_reduction(+ : inner)
      for (int i = 1; i <= 10; i++) {
#pragma omp task in_reduction(+ : outer, inner)
        {
          outer += i;
          inner += 2 * i;
        }
      }
      expect("the inner item behind its group", inner, 110);
    }
    expect("the outer item", outer, 55);
  }
  return wrong;
}
