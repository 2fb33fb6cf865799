// An undeferred task with mutexinoutset waits for the readers before it, and runs apart from others with the item.
// openmp: 15.9.5 depend clause, 12.5 task construct
#include "expect.h"

int main(void) {
  for (int round = 0; round < 20; round++) {
    int item = 0, sum = 0;
    long readers = 0;
    (void)item;
#pragma omp parallel
#pragma omp single
    {
      for (int i = 0; i < 4; i++) {
#pragma omp task depend(in : item) shared(readers)
        count_late(&readers);
      }
      for (int i = 0; i < 6; i++) {
#pragma omp task depend(mutexinoutset : item) if (i % 2) shared(readers, sum)
        {
          expect("readers that have ended", now(&readers), 4);
          int before = sum;
          linger();
          sum = before + 1;
        }
      }
#pragma omp task depend(in : item) if (0) shared(sum)
      expect("what was added before the undeferred reader", sum, 6);
    }
  }
  return wrong;
}
