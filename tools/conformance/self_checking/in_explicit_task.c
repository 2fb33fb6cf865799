// omp_in_explicit_task tells a task from the region's own code, also where the task is undeferred or included.
// openmp: 18.5.2 omp_in_explicit_task
#include "expect.h"

int main(void) {
  expect("outside of regions", omp_in_explicit_task(), 0);
  for (int round = 0; round < 20; round++) {
#pragma omp parallel
    {
      expect("in the region's own code", omp_in_explicit_task(), 0);
#pragma omp task if (round % 2) final(round % 3 == 0)
      {
        expect_so("in a task", omp_in_explicit_task() != 0);
#pragma omp task
        expect_so("in a task below", omp_in_explicit_task() != 0);
      }
      expect("behind a task", omp_in_explicit_task(), 0);
    }
  }
  return wrong;
}
