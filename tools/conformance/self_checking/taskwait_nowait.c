// A taskwait with depend and nowait does not wait itself; tasks behind it that share its items do.
// openmp: 15.5 taskwait construct, 15.6 nowait clause
#include "expect.h"

int main(void) {
  for (int round = 0; round < 20; round++) {
    int a = 0, b = 0;
    long ended = 0;
    (void)a, (void)b;
#pragma omp parallel
#pragma omp single
    {
#pragma omp task depend(out : a) shared(ended)
      {
        linger();
        set(&ended);
      }
#pragma omp taskwait depend(in : a) depend(out : b) nowait
#pragma omp task depend(in : b) shared(ended)
      expect_so("the first task has ended before the last", now(&ended));
    }
  }
  return wrong;
}
