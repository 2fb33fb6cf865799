// Moves of data with nowait are tasks, also on the host: depend orders them, and taskwait waits for them.
// openmp: 13.6 target enter data, 13.7 target exit data, 13.9 target update, 15.6 nowait clause, 15.9.5 depend clause
// env: OMP_TARGET_OFFLOAD=DISABLED
#include "expect.h"

int main(void) {
  for (int round = 0; round < 10; round++) {
    int a = 0, b = 0;
    long ended = 0;
    (void)a, (void)b;
#pragma omp parallel
#pragma omp single
    {
#pragma omp task depend(out : a) shared(ended)
      count_late(&ended);
#pragma omp target enter data map(to : a) nowait depend(inout : a) depend(out : b)
#pragma omp task depend(in : b) depend(in : a) shared(ended)
      {
        expect("tasks that have ended before the data were entered", now(&ended), 1);
        count_late(&ended);
      }
#pragma omp target update to(a) nowait depend(inout : a)
#pragma omp task depend(inout : a) shared(ended)
      {
        expect("tasks that have ended before the update", now(&ended), 2);
        count_late(&ended);
      }
#pragma omp target exit data map(from : a) nowait depend(inout : a)
#pragma omp task depend(in : a) shared(ended)
      {
        expect("tasks that have ended before the data were left", now(&ended), 3);
        count(&ended);
      }
#pragma omp taskwait
      expect("tasks that have ended behind taskwait", now(&ended), 4);
    }
  }
  return wrong;
}
