// Items order siblings alone: children of two tasks with equal items need not wait for each other, and a task is
// complete for its dependent sibling though its children are not.
// openmp: 15.9.5 depend clause
#include "expect.h"

int main(void) {
  if (omp_get_max_threads() < 2) return 0;
  for (int round = 0; round < 20; round++) {
    int item = 0;
    long other_began = 0, let_go = 0, dependent = 0;
    (void)item;
#pragma omp parallel num_threads(2)
#pragma omp single
    if (omp_get_num_threads() == 2) {
#pragma omp task depend(out : item) shared(other_began, let_go)
      {
#pragma omp task depend(out : item) shared(other_began, let_go)
        {
          set(&other_began);
          await(&let_go);
        }
      }
      await(&other_began);
#pragma omp task depend(inout : item) if (0) shared(let_go, dependent)
      {
        count(&dependent);
        set(&let_go);
      }
      expect("the dependent task has run", dependent, 1);
    }
  }
  return wrong;
}
