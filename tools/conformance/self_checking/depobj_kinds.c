// Depend objects of two readers let both in at once and hold a writer; an update to mutexinoutset keeps tasks apart.
// openmp: 15.9.3 update clause, 15.9.4 depobj construct, 15.9.5 depend clause
#include "expect.h"

int main(void) {
  for (int round = 0; round < 20; round++) {
    int item = 0, sum = 0;
    long readers = 0;
    (void)item;
#pragma omp parallel
#pragma omp single
    {
      omp_depend_t object;
#pragma omp depobj(object) depend(in : item)
      for (int i = 0; i < 5; i++) {
#pragma omp task depend(depobj : object) shared(readers)
        count_late(&readers);
      }
#pragma omp depobj(object) update(mutexinoutset)
      for (int i = 0; i < 5; i++) {
#pragma omp task depend(depobj : object) shared(readers, sum)
        {
          expect("readers that have ended", now(&readers), 5);
          int before = sum;
          if (i == 1) linger();
          sum = before + 1;
        }
      }
#pragma omp depobj(object) update(out)
#pragma omp task depend(depobj : object) shared(sum)
      expect("what tasks that exclude one another added", sum, 5);
    }
  }
  return wrong;
}
