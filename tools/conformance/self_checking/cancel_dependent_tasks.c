// Tasks of a cancelled group that depend on others run or are left out, and hold up none of those behind the group.
// openmp: 16.1 cancel construct, 15.9.5 depend clause
// env: OMP_CANCELLATION=true
#include "expect.h"

int main(void) {
  for (int round = 0; round < 20; round++) {
    long ran = 0, behind = 0;
    int chain = 0, other = 0;
    (void)chain, (void)other;
#pragma omp parallel
#pragma omp single
    {
#pragma omp taskgroup
      {
#pragma omp task depend(out : chain)
        {
          linger();
#pragma omp cancel taskgroup
        }
        for (int i = 0; i < 10; i++) {
#pragma omp task depend(inout : chain) depend(out : other) shared(ran)
          count(&ran);
        }
      }
      for (int i = 0; i < 4; i++) {
#pragma omp task depend(inout : chain) depend(in : other) shared(behind)
        count(&behind);
      }
#pragma omp taskwait
      expect("tasks behind the cancelled group", behind, 4);
    }
    expect_so("each task of the group ran once or never", ran <= 10);
  }
  return wrong;
}
