// A task with if(0), and each one that is included, has run before its creator goes on, and behind what it depends on.
// openmp: 12.5 task construct, 12.3 final clause
#include "expect.h"

int main(void) {
  for (int round = 0; round < 20; round++) {
    long first = 0;
    int second = 0, item = 0;
    (void)item;
#pragma omp parallel
#pragma omp single
    {
#pragma omp task depend(out : item) shared(first)
      {
        linger();
        set(&first);
      }
#pragma omp task if(0) depend(in : item) shared(first, second)
      {
        expect_so("the task before has ended", now(&first));
        second = 1;
      }
      expect_so("the undeferred task has run", second);
    }
  }
  return wrong;
}
