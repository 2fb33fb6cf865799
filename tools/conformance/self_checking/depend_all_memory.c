// A dependence on omp_all_memory orders a task behind all earlier siblings with items, and before all later ones.
// openmp: 15.9.5 depend clause
#include "expect.h"

int main(void) {
  for (int round = 0; round < 20; round++) {
    int a = 0, b = 0;
    long before = 0, ended = 0;
    (void)a, (void)b;
#pragma omp parallel
#pragma omp single
    {
      for (int i = 0; i < 4; i++) {
#pragma omp task depend(in : a) shared(before)
        count_late(&before);
      }
#pragma omp task depend(out : omp_all_memory) shared(before, ended)
      {
        expect("siblings that have ended before the task", now(&before), 4);
        linger();
        set(&ended);
      }
#pragma omp task depend(in : b) shared(ended)
      expect_so("the task has ended before a later sibling", now(&ended));
    }
  }
  return wrong;
}
