// Tasks with inoutset on one item may run side by side, behind what came before and before what comes after.
// openmp: 15.9.5 depend clause
#include "expect.h"

int main(void) {
  for (int round = 0; round < 20; round++) {
    int item = 0;
    long members = 0;
#pragma omp parallel
#pragma omp single
    {
#pragma omp task depend(out : item)
      {
        linger();
        item = 1;
      }
      for (int i = 0; i < 6; i++) {
#pragma omp task depend(inoutset : item) shared(members)
        {
          expect("what the writer before left", item, 1);
          count_late(&members);
        }
      }
#pragma omp task depend(in : item) shared(members)
      expect("members that have ended before the reader", now(&members), 6);
    }
  }
  return wrong;
}
