// A target region with nowait is a task: depend orders it, and taskwait waits for it. Here it runs on the host.
// openmp: 13.8 target construct, 15.6 nowait clause, 15.9.5 depend clause
// env: OMP_TARGET_OFFLOAD=DISABLED
#include "expect.h"

int main(void) {
  for (int round = 0; round < 10; round++) {
    int a = 0, b = 0;
#pragma omp parallel
#pragma omp single
    {
#pragma omp task depend(out : a) shared(a)
      {
        linger();
        a = 5;
      }
#pragma omp target map(tofrom : a, b) nowait depend(in : a) depend(out : b)
      b = a + 1;
#pragma omp task depend(in : b) shared(b)
      expect("what the target region left", b, 6);
#pragma omp taskwait
      expect("the same behind taskwait", b, 6);
    }
  }
  return wrong;
}
