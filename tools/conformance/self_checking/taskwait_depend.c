// A taskwait with depend waits for the tasks that it depends on, and needs no other.
// openmp: 15.5 taskwait construct, 15.9.5 depend clause
#include "expect.h"

int main(void) {
  for (int round = 0; round < 20; round++) {
    long a = 0;
    int b = 0;
    (void)b;
#pragma omp parallel
#pragma omp single
    {
#pragma omp task depend(out : a)
      {
        linger();
        set(&a);
      }
#pragma omp task depend(out : b)
      linger();
#pragma omp taskwait depend(in : a)
      expect_so("the task has ended behind taskwait", now(&a));
    }
  }
  return wrong;
}
